//! Sixteen comparisons are a sheet's, seventeen are not; and runs that are not merged are none.

use skimp_reference::condition::{Condition, Joining};
use skimp_reference::generate::conditions::joined;
use skimp_reference::random::Random;
use skimp_reference::sheet::{Line, Sheet};
use skimp_reference::translate::{translate, without_limits};
use skimp_reference::untranslate::untranslate;

use super::{goto, of_variables, sheet};

/// Two IFs with the condition: each has comparisons of its own.
fn twice(condition: &Condition<usize>) -> Sheet {
    let line = || Line::If(of_variables(condition));
    let lines = vec![
        line(),
        goto(1),
        Line::Else,
        line(),
        goto(3),
        Line::Finish,
        Line::Finish,
    ];
    sheet(condition.count(), lines)
}

#[test]
fn most_comparisons() {
    let mut random = Random(18);
    for count in 2..=20 {
        for turn in 0..50 {
            let word = [Joining::And, Joining::Or][turn % 2];
            let condition = match turn {
                // one run of all
                0 | 1 => Condition::Run(word, (0..count).map(Condition::Comparison).collect()),
                _ => joined(&mut random, word, &mut (0..count), count),
            };
            let sheet = twice(&condition);
            let is_sheet = count <= 16;
            assert_eq!(translate(&sheet).is_some(), is_sheet, "{}", sheet.text());
            let back = untranslate(&without_limits(&sheet));
            assert_eq!(back, is_sheet.then_some(sheet));
        }
    }
}

/// "A sheet, by its definition, merges nested runs of the same joining word": what is not merged is no
/// sheet, and its orders are those of the merged one.
#[test]
fn not_merged() {
    use Condition::{Comparison as C, Run};
    for word in [Joining::And, Joining::Or] {
        let run = |members: Vec<Condition<usize>>| Run(word, members);
        let flat = run(vec![C(0), C(1), C(2)]);
        for nested in [
            run(vec![run(vec![C(0), C(1)]), C(2)]),
            run(vec![C(0), run(vec![C(1), C(2)])]),
            run(vec![run(vec![C(0), C(1), C(2)])]),
            run(vec![run(vec![C(0)]), C(1), C(2)]),
            run(vec![Run(word.other(), vec![C(0)]), C(1), C(2)]),
            run(vec![C(0), Run(word.other(), vec![run(vec![C(1), C(2)])])]),
        ] {
            let (unmerged, merged) = (twice(&nested), twice(&flat));
            assert!(!nested.is_merged());
            assert_eq!(translate(&unmerged), None, "{}", unmerged.text());
            let orders = without_limits(&unmerged);
            assert_eq!(Some(&orders), translate(&merged).as_ref());
            assert_eq!(untranslate(&orders), Some(merged));
        }
    }
}

/// What `joined` of the library merges.
#[test]
fn merging() {
    use Condition::{Comparison as C, Run};
    use Joining::{And, Or};
    let flat = Run(And, vec![C(0), C(1), C(2)]);
    let first = Condition::joined(And, vec![C(0), C(1)]);
    assert_eq!(Condition::joined(And, vec![first.clone(), C(2)]), flat);
    let second = Condition::joined(And, vec![C(1), C(2)]);
    assert_eq!(Condition::joined(And, vec![C(0), second]), flat);
    let mixed = Condition::joined(Or, vec![first.clone(), C(2)]);
    assert_eq!(mixed, Run(Or, vec![first, C(2)]));
    assert_eq!(Condition::joined(Or, vec![C(7)]), C(7));
}
