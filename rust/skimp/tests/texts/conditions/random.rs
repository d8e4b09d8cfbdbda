//! Random conditions of up to seventeen comparisons, in sources with brackets that they do not need.

use skimp_reference::agree::{Compared, COMPILE, READ_BACK};
use skimp_reference::condition::{Condition, Joining};
use skimp_reference::generate::conditions::joined;
use skimp_reference::random::Random;
use skimp_reference::runs::Runs;
use skimp_reference::source::read;
use skimp_reference::translate::translate;
use skimp_reference::writing::joined::text;
use skimp_reference::Refusal;

use super::declared;
use crate::{compile_call, read_back_call, run_call};

/// Comparisons of the variables V0 to V3, some of which may fault.
fn comparison(random: &mut Random) -> String {
    let operand = |random: &mut Random| match random.below(8) {
        0 => format!("(V{}-1)", random.below(4)),
        1 => format!("(-V{})", random.below(4)),
        2 => format!("7/V{}", random.below(4)),
        3..=5 => format!("V{}", random.below(4)),
        _ => random.below(4).to_string(),
    };
    let (left, right) = (operand(random), operand(random));
    let relation = random.pick(&["=", "#", "<", "<=", ">", ">="]);
    format!("{left}{relation}{right}")
}

/// A program that goes round with the variables counting up, and sends what the condition says.
fn source(random: &mut Random, condition: &Condition<String>) -> Vec<u8> {
    let brackets = random.pick(&[1000, 12, 6]);
    let condition = text(condition, &mut || random.once_in(brackets));
    let start = random.pick(&[
        "",
        "V0=1\n",
        "V1=2\nV2=1\n",
        "V3=3\n",
        "V0=1;V1=1;V2=1;V3=1\n",
    ]);
    let parts = random.pick(&[
        "%THEN SEND(1) %ELSE SEND(2)",
        "%THEN SEND(1)",
        "%THEN ->2 %ELSE ->3",
        "%THEN %START\nSEND(1)\n%FINISH",
        "%THEN %START\nSEND(1)\n%FINISH %ELSE %START\nV2=V2+1\n%FINISH",
    ]);
    let rest = "2:V0=V0+1\n3:V3=V3+1\n%IF V3<4 %AND (V0<3 %OR V1=V2) %THEN ->1";
    let lists = declared(4);
    format!("%BEGIN\n{lists}{start}1:%IF {condition} {parts}\n{rest}\n%ENDOFPROGRAM\n").into_bytes()
}

/// A condition of so many comparisons.
fn condition(random: &mut Random, count: usize) -> Condition<String> {
    let comparisons: Vec<String> = (0..count).map(|_| comparison(random)).collect();
    let word = random.pick(&[Joining::And, Joining::Or]);
    joined(random, word, &mut comparisons.into_iter(), count)
}

#[test]
fn conditions() {
    let name = "random conditions, seed 63";
    let mut random = Random(63);
    let mut compile = Compared::new(COMPILE, compile_call);
    let mut read_back = Compared::new(READ_BACK, read_back_call);
    let mut runs = Runs::default();
    let mut object = vec![0; skimp::OBJECT_MOST];
    let mut accepted = [0; 18];
    let mut over = 0;
    for _ in 0..4000 {
        let count = random.between(1, 17);
        let condition = condition(&mut random, count);
        let source = source(&mut random, &condition);
        if let Err(Refusal { number, .. }) = compile.check(name, &source) {
            // too many cells, or comparisons
            assert!(
                number == 4 || number == 11 && count == 17,
                "{name}: {number}"
            );
            over += usize::from(number == 11);
            continue;
        }
        accepted[count] += 1;
        let object = skimp::compile(&source, &mut object).expect("it was accepted");
        assert_eq!(read_back.check(name, object), Ok(()));
        let sheet = read(&source).expect("it was accepted");
        let translation = translate(&sheet).expect("within the limits");
        runs.hold(name, &sheet, &translation, 6, run_call);
    }
    let enough = accepted[1..=16].iter().all(|&count| count >= 100);
    assert!(enough && accepted[17] == 0, "{name}: {accepted:?}");
    assert!(over >= 100, "{name}: {over} with 17 comparisons");
    for ending in [1, 20] {
        assert!(runs.endings[ending] >= 500, "{name}: {:?}", runs.endings);
    }
}
