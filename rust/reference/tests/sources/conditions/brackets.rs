//! Brackets that a condition does not need leave no trace.

use skimp_reference::condition::{Condition, Joining, JOININGS};
use skimp_reference::generate::conditions::{every_condition, joined};
use skimp_reference::random::Random;
use skimp_reference::source::read;
use skimp_reference::writing::joined::{plain_text, text};
use skimp_reference::{compile, object_text};

use super::asked;

/// The fields of a condition whose comparisons ask whether A is their number.
fn fields(condition: &Condition<usize>) -> String {
    match condition {
        Condition::Comparison(number) => format!("= W2 K{number}"),
        Condition::Run(word, members) => {
            let fields: Vec<String> = members.iter().map(fields).collect();
            let word = JOININGS[*word as usize].1;
            format!("{word} {} {}", members.len(), fields.join(" "))
        }
    }
}

/// The same with their text for comparisons.
fn texts(condition: &Condition<usize>) -> Condition<String> {
    condition.map(&mut |number| format!("A={number}"))
}

/// Every condition of up to five comparisons: without needless brackets, with each one of those that
/// `text` may put, and with all of them.
#[test]
fn every_condition_of_a_few() {
    let mut tried = 0;
    for count in 1..=5 {
        for condition in every_condition(0, count) {
            let expected = fields(&condition);
            let condition = texts(&condition);
            assert_eq!(asked(&plain_text(&condition)), expected);
            let mut places = 0;
            let all = text(&condition, &mut || {
                places += 1;
                true
            });
            assert_eq!(asked(&all), expected, "{all}");
            for one in 0..places {
                let mut place = 0;
                let bracketed = text(&condition, &mut || {
                    place += 1;
                    place == one + 1
                });
                assert_ne!(bracketed, plain_text(&condition));
                assert_eq!(asked(&bracketed), expected, "{bracketed}");
                tried += 1;
            }
        }
    }
    assert!(tried >= 1000, "{tried} brackets");
}

/// Random conditions of up to sixteen comparisons, with random brackets, have the object of the same
/// without.
#[test]
fn random_conditions() {
    let mut random = Random(45);
    let mut differ = 0;
    for _ in 0..20_000 {
        let count = random.between(1, 16);
        let word = random.pick(&[Joining::And, Joining::Or]);
        let condition = joined(&mut random, word, &mut (0..count), count);
        let texts = texts(&condition);
        let brackets = random.pick(&[3, 6, 12, 100]);
        let bracketed = text(&texts, &mut || random.once_in(brackets));
        let plain = plain_text(&texts);
        differ += usize::from(bracketed != plain);
        let program = |condition: &str| {
            let source = format!("%BEGIN;%INTEGER A;%IF {condition} %THEN A=1;%ENDOFPROGRAM");
            source.into_bytes()
        };
        let [one, other] = [&bracketed, &plain].map(|text| program(text));
        let object = object_text(&other).unwrap_or_else(|refusal| panic!("{refusal:?}: {plain}"));
        match object_text(&one) {
            Ok(same) => assert_eq!(same, object, "{bracketed}"),
            // too many cells
            Err(refusal) => assert_eq!((refusal.number, refusal.place), (4, 3), "{bracketed}"),
        }
        let sheet = read(&other).expect("it was accepted").text();
        let line = sheet.lines().nth(1).expect("an IF").replace('\t', " ");
        assert_eq!(line, format!("IF {}", fields(&condition)));
    }
    assert!(differ >= 10_000, "{differ} had needless brackets");
}

/// As many brackets as the cells hold, round a comparison, in it and round both.
#[test]
fn deepest_brackets() {
    // %IF, A=1, %THEN A=1 and the end mark
    let most = (256 - 2 - 3 - 4 - 3 - 1) / 2;
    for (depth, is_form) in [(1, true), (60, true), (most, true), (most + 1, false)] {
        let (open, close) = ("(".repeat(depth), ")".repeat(depth));
        for condition in [
            format!("{open}A=1{close}"),
            format!("{open}A{close}=1"),
            format!("A={open}1{close}"),
            format!("({}A{}=1)", &open[1..], &close[1..]),
        ] {
            let expected = if is_form { "= W2 K1" } else { "4 at 3" };
            assert_eq!(asked(&condition), expected, "{condition}");
        }
    }
    // opened and never closed, up to the last cell
    let mut object = vec![0; 100];
    for (count, number) in [(252, 7), (253, 7), (254, 4)] {
        let source = format!("%BEGIN\n%IF {}\n", "(".repeat(count));
        let reply = compile(source.as_bytes(), &mut object);
        assert_eq!((reply.number, reply.value), (number, 2), "{count}");
    }
}
