//! "up to 16 comparisons", and what is refused before 11.

use skimp_reference::condition::{Condition, Joining};
use skimp_reference::generate::conditions::joined;
use skimp_reference::random::Random;
use skimp_reference::writing::joined::{plain_text, text};

use super::asked;
use crate::{check_third, third_line};

/// So many comparisons, joined by a word.
fn run(word: &str, count: usize) -> String {
    vec!["A=1"; count].join(&format!(" %{word} "))
}

#[test]
fn most_comparisons() {
    for word in ["AND", "OR"] {
        for count in 2..=16 {
            let fields = vec!["= W2 K1"; count].join(" ");
            assert_eq!(asked(&run(word, count)), format!("{word} {count} {fields}"));
        }
        for count in 17..=20 {
            assert_eq!(asked(&run(word, count)), "11 at 3");
        }
    }
}

/// All of an IF count, whatever runs and brackets they stand in; each IF has its own.
#[test]
fn all_are_counted() {
    let mut random = Random(46);
    let mut refused = 0;
    for _ in 0..5000 {
        let count = random.between(12, 20);
        let word = random.pick(&[Joining::And, Joining::Or]);
        let condition: Condition<String> = joined(
            &mut random,
            word,
            &mut std::iter::repeat("A=1".to_string()),
            count,
        );
        let plain = asked(&plain_text(&condition));
        assert_eq!(plain == "11 at 3", count > 16, "{condition:?}");
        let bracketed = text(&condition, &mut || random.once_in(12));
        assert_eq!(asked(&bracketed), plain, "{bracketed}");
        refused += usize::from(count > 16);
    }
    assert!((1000..4000).contains(&refused), "{refused} refused");
    let nested = format!("({}) %OR ({})", run("AND", 8), run("AND", 8));
    assert!(asked(&nested).starts_with("OR 2 AND 8 = "));
    let nested = format!("({}) %OR ({})", run("AND", 8), run("AND", 9));
    assert_eq!(asked(&nested), "11 at 3");
    let both = format!(
        "%IF {} %THEN A=1;%IF {} %THEN A=2",
        run("AND", 16),
        run("OR", 16)
    );
    assert!(third_line(&both).starts_with("IF AND 16 = "));
    let inside = format!(
        "%IF {} %THEN %START;%IF {} %THEN A=2;%FINISH",
        run("AND", 16),
        run("OR", 17)
    );
    assert_eq!(third_line(&inside), "11 at 4");
}

/// "7, 8, 9, 11", at the IF's own statement.
#[test]
fn order_of_checks() {
    let over = run("AND", 17);
    check_third(&[
        (&format!("%IF {over} %THEN A=1"), "11 at 3"),
        (&format!("A=1;%IF {over} %THEN A=1"), "11 at 4"),
        (&format!("%IF {over} %THEN A=1 %ELSE A=2"), "11 at 3"),
        (&format!("%IF {over} %THEN %START;A=1;%FINISH"), "11 at 3"),
        (&format!("%IF {over} %THEN %START;A=1"), "11 at 3"),
        (&format!("%IF ({over}) %THEN A=1"), "11 at 3"),
        // 3 to 7
        (&format!("%IF {over} %THEN A='"), "3 at 3"),
        (&format!("%IF {over} %THEN A=%X"), "5 at 3"),
        (&format!("%IF {over} %THEN A=''"), "6 at 3"),
        (&format!("%IF {over} %OR A=1 %THEN A=1"), "7 at 3"),
        (&format!("%IF {over} %AND %THEN A=1"), "7 at 3"),
        (&format!("%IF ({over} %THEN A=1"), "7 at 3"),
        (&format!("%IF {over} %THEN"), "7 at 3"),
        (&format!("%IF {over} %THEN A=1 %ELSE"), "7 at 3"),
        // 8 and 9
        (&format!("%IF {over} %AND X=1 %THEN A=1"), "8 at 3"),
        (&format!("%IF {over} %THEN X=1"), "8 at 3"),
        (&format!("%IF {over} %THEN A=1 %ELSE A=X"), "8 at 3"),
        (&format!("%IF {over} %THEN ->0"), "9 at 3"),
        (&format!("0:%IF {over} %THEN A=1"), "9 at 3"),
        (&format!("1:1:%IF {over} %THEN A=1"), "9 at 3"),
        (&format!("%IF {over} %THEN A=1 %ELSE ->10000"), "9 at 3"),
        // before what later statements have, and before a label that is never set
        (&format!("%IF {over} %THEN ->9"), "11 at 3"),
        (&format!("->9;%IF {over} %THEN A=1"), "11 at 4"),
        (&format!("%IF {over} %THEN A=1;A=X"), "11 at 3"),
        (&format!("A=X;%IF {over} %THEN A=1"), "8 at 3"),
        (&format!("%IF {over} %THEN A=1;A='"), "11 at 3"),
        (&format!("%FINISH;%IF {over} %THEN A=1"), "13 at 3"),
    ]);
}

/// The orders of a condition are its IF's: COND, and those of all comparisons with their branches.
#[test]
fn orders_and_temporaries() {
    let sends = |count: usize| "SEND(1);".repeat(count);
    let with = |count: usize, rest: &str| third_line(&format!("{}{rest}", sends(count)));
    // COND, two comparisons of three orders, and the jump: 8, then STOP
    let two = "1:%IF A=1 %AND B=1 %THEN ->1";
    assert!(with(1019, two).starts_with("SEND K1; "));
    assert!(with(1019, &format!("2:->2;{two}")).starts_with("SEND K1; "));
    assert_eq!(with(1020, two), "11 at 1023");
    assert_eq!(with(1019, &format!("2:->2;3:->3;{two}")), "11 at 1024");
    // at the IF with its group: COND and the comparisons alone pass the limit
    let group = "%IF A=1 %AND B=1 %THEN %START;1:->1;%FINISH";
    assert!(with(1019, group).starts_with("SEND K1; "));
    assert_eq!(with(1020, group), "11 at 1024");
    assert_eq!(with(1021, group), "11 at 1024");
    // every comparison starts with none in use
    let nested = |count: usize| {
        let depth = count - 1;
        format!("{}1-1{}=1", "1-(".repeat(depth), ")".repeat(depth))
    };
    let pair = |first: usize, second: usize| {
        third_line(&format!(
            "%IF {} %OR {} %THEN A=1",
            nested(first),
            nested(second)
        ))
    };
    assert!(pair(16, 16).starts_with("IF OR 2 = "));
    assert!(pair(32, 2).starts_with("IF OR 2 = "));
    assert!(pair(2, 32).starts_with("IF OR 2 = "));
    assert_eq!(pair(33, 2), "11 at 3");
    assert_eq!(pair(2, 33), "11 at 3");
}
