//! Runs whose every number stands in document 01 or is worked out from it by hand.

use crate::call::{Call, Outcome};
use crate::program::state;

/// Document 01's worked object.
const WORKED: &[u8] = include_bytes!("../../../../examples/worked.box");

pub fn call(object: &[u8], state: Vec<u8>, output: Vec<u8>, budget: u32) -> Outcome {
    let call = Call {
        object: object.to_vec(),
        state,
        output,
        budget,
    };
    call.outcome("vectors")
}

/// The object of some orders, with two variables. Spaces stand for tabs.
pub fn object(orders: &[&str]) -> Vec<u8> {
    let text = format!("BOX 2 0 {}\n{}\n", orders.len(), orders.join("\n"));
    text.replace(' ', "\t").into_bytes()
}

const LEAST: u32 = 0x8000_0000;
const MOST: u32 = 0x7FFF_FFFF;
/// Half of the least word's size.
const HALF: u32 = 0x4000_0000;
const MINUS_1: u32 = 1_u32.wrapping_neg();
const MINUS_2: u32 = 2_u32.wrapping_neg();
const MINUS_3: u32 = 3_u32.wrapping_neg();
const MINUS_4: u32 = 4_u32.wrapping_neg();
const MINUS_5: u32 = 5_u32.wrapping_neg();
const MINUS_7: u32 = 7_u32.wrapping_neg();
const MINUS_8: u32 = 8_u32.wrapping_neg();
const MINUS_21: u32 = 21_u32.wrapping_neg();

#[test]
fn worked_object_is_that_of_document_01() {
    let orders = "BOX 2 2 21; LOAD K 3; STR D 2; LOAD D 2; STR D 4; LOAD K 2; SUB K 5; DIV K 2; \
                  STR D 5; LOAD D 4; SUB D 5; STR D 3; LOAD D 3; CMP K 4; BLE A 17; LOAD D 3; \
                  SEND - 0; SKIP A 18; JMP A 18; LOAD D 2; SEND - 0; STOP - 0";
    let text = orders.replace("; ", "\n").replace(' ', "\t") + "\n";
    assert_eq!(WORKED, text.as_bytes());
}

/// Request L3: "the worked program now sends 5, then 3, in 20 steps."
#[test]
fn worked_object() {
    let run = call(WORKED, state(0, 0, 0, 0, &[0; 6]), vec![0x77; 10], 1000);
    assert_eq!((run.number, run.value), (20, 20));
    assert_eq!(run.output, [0, 0, 0, 5, 0, 0, 0, 3, 0x77, 0x77]);
    let last = state(3, 20, 2, 20, &[0, 0, 3, 5, 3, MINUS_2]);
    assert_eq!(run.state, last);
    // it has ended, and says so again
    let again = call(WORKED, last.clone(), run.output.clone(), 1000);
    assert_eq!((again.number, again.value), (20, 0));
    assert_eq!((again.state, again.output), (last, run.output));
}

#[test]
fn worked_object_with_each_budget() {
    for budget in 0..=22 {
        let run = call(WORKED, state(0, 0, 0, 0, &[0; 6]), vec![0x77; 8], budget);
        let expected = if budget < 20 { (0, budget) } else { (20, 20) };
        assert_eq!((run.number, run.value), expected, "budget {budget}");
        let sent = match budget {
            0..=15 => [0x77; 8],
            16..=18 => [0, 0, 0, 5, 0x77, 0x77, 0x77, 0x77],
            _ => [0, 0, 0, 5, 0, 0, 0, 3],
        };
        assert_eq!(run.output, sent, "budget {budget}");
    }
    // after 13 steps CMP has been carried out: 5 is greater than 4
    let run = call(WORKED, state(0, 0, 0, 0, &[0; 6]), vec![], 13);
    assert_eq!(run.state, state(1, 13, 0, 0, &[0, 0, 3, 5, 3, MINUS_2]));
    // without room for a number, the 16th order carried out would be SEND
    let run = call(WORKED, state(0, 0, 0, 0, &[0; 6]), vec![0x77; 3], 15);
    assert_eq!((run.number, run.value), (4, 15));
    assert_eq!(run.state, state(5, 15, 0, 4, &[0, 0, 3, 5, 3, MINUS_2]));
    assert_eq!(run.output, [0x77; 3]);
    // with room for one, the 19th
    let run = call(WORKED, state(0, 0, 0, 0, &[0; 6]), vec![0x77; 7], 1000);
    assert_eq!((run.number, run.value), (4, 18));
    assert_eq!(run.state, state(3, 19, 1, 4, &[0, 0, 3, 5, 3, MINUS_2]));
    assert_eq!(run.output, [0, 0, 0, 5, 0x77, 0x77, 0x77]);
}

/// The accumulator after one order on it and the word 2, whose result or fault is given.
fn on_words(name: &str, acc: u32, word: u32) -> Result<u32, u32> {
    let object = object(&[&format!("{name} D 2"), "STOP - 0"]);
    let before = [7, 8, word, 9];
    let run = call(&object, state(acc, 0, 0, 0, &before), vec![], 1);
    match run.number {
        0 => {
            let after = u32::from_be_bytes(run.state[..4].try_into().expect("four bytes"));
            assert_eq!(run.value, 1);
            assert_eq!(run.state, state(after, 1, 0, 0, &before));
            Ok(after)
        }
        fault => {
            assert_eq!(run.value, 0);
            assert_eq!(run.state, state(acc, 0, 0, fault, &before));
            Err(fault)
        }
    }
}

/// An order, the accumulator, the word, and the accumulator after it or its fault.
const ARITHMETIC: [(&str, u32, u32, Result<u32, u32>); 62] = [
    ("LOAD", 5, MINUS_1, Ok(MINUS_1)),
    ("ADD", MOST, 1, Ok(LEAST)),
    ("SUB", 2, 5, Ok(MINUS_3)),
    ("SUB", LEAST, 1, Ok(MOST)),
    ("MLT", 65536, 65536, Ok(0)),
    ("MLT", MINUS_3, 7, Ok(MINUS_21)),
    ("DIV", 7, 2, Ok(4)),
    ("DIV", MINUS_7, 2, Ok(MINUS_4)),
    ("DIV", 7, MINUS_2, Ok(MINUS_4)),
    ("DIV", MINUS_7, MINUS_2, Ok(4)),
    ("DIV", 5, 2, Ok(3)),
    ("DIV", MINUS_5, 2, Ok(MINUS_3)),
    ("DIV", 5, MINUS_2, Ok(MINUS_3)),
    ("DIV", MINUS_5, MINUS_2, Ok(3)),
    ("DIV", MINUS_3, 2, Ok(MINUS_2)),
    ("DIV", 1, 2, Ok(1)),
    ("DIV", MINUS_1, 2, Ok(MINUS_1)),
    ("DIV", 1, 3, Ok(0)),
    ("DIV", 2, 3, Ok(1)),
    ("DIV", MINUS_2, 3, Ok(MINUS_1)),
    ("DIV", 4, 3, Ok(1)),
    ("DIV", 4, MINUS_3, Ok(MINUS_1)),
    ("DIV", 0, MINUS_7, Ok(0)),
    ("DIV", MOST, 2, Ok(HALF)),
    ("DIV", LEAST, 2, Ok(HALF.wrapping_neg())),
    ("DIV", LEAST, MINUS_2, Ok(HALF)),
    ("DIV", LEAST, 3, Ok(715827883_u32.wrapping_neg())),
    ("DIV", LEAST, MINUS_3, Ok(715827883)),
    ("DIV", LEAST, MINUS_1, Ok(LEAST)),
    ("DIV", LEAST, LEAST, Ok(1)),
    ("DIV", LEAST, MOST, Ok(MINUS_1)),
    ("DIV", MOST, LEAST, Ok(MINUS_1)),
    ("DIV", HALF, LEAST, Ok(MINUS_1)),
    ("DIV", HALF - 1, LEAST, Ok(0)),
    ("DIV", HALF.wrapping_neg(), LEAST, Ok(1)),
    ("DIV", HALF, MOST, Ok(1)),
    ("DIV", HALF - 1, MOST, Ok(0)),
    ("DIV", 5, 0, Err(1)),
    ("DIV", 0, 0, Err(1)),
    ("DIV", LEAST, 0, Err(1)),
    ("EXP", 0, 0, Ok(1)),
    ("EXP", 2, 31, Ok(LEAST)),
    ("EXP", 2, 32, Ok(0)),
    ("EXP", MINUS_2, 3, Ok(MINUS_8)),
    ("EXP", MINUS_1, MOST, Ok(MINUS_1)),
    ("EXP", 0, MINUS_1, Err(2)),
    ("EXP", 1, MINUS_1, Err(2)),
    ("EXP", 2, LEAST, Err(2)),
    ("SHL", 3, 31, Ok(LEAST)),
    ("SHL", 1, 32, Err(3)),
    ("SHL", 1, MINUS_1, Err(3)),
    ("SHR", MINUS_1, 31, Ok(1)),
    ("SHR", MINUS_1, 0, Ok(MINUS_1)),
    ("SHR", 1, 32, Err(3)),
    ("SHR", 1, LEAST, Err(3)),
    ("AND", 6, 3, Ok(2)),
    ("OR", 6, 3, Ok(7)),
    ("XOR", 6, 3, Ok(5)),
    ("CMP", MOST, LEAST, Ok(1)),
    ("CMP", LEAST, MOST, Ok(MINUS_1)),
    ("CMP", LEAST, LEAST, Ok(0)),
    ("CMP", MINUS_1, 0, Ok(MINUS_1)),
];

#[test]
fn word_arithmetic() {
    for (name, acc, word, expected) in ARITHMETIC {
        assert_eq!(on_words(name, acc, word), expected, "{name} {acc} {word}");
    }
}

#[test]
fn branches() {
    for (name, of_minus, of_zero, of_plus) in [
        ("JMP", true, true, true),
        ("BE", false, true, false),
        ("BNE", true, false, true),
        ("BLT", true, false, false),
        ("BLE", true, true, false),
        ("BGT", false, false, true),
        ("BGE", false, true, true),
    ] {
        let object = object(&["NEG - 0", &format!("{name} A 0"), "STOP - 0"]);
        for (acc, goes) in [
            (LEAST, of_minus),
            (MINUS_1, of_minus),
            (0, of_zero),
            (1, of_plus),
            (MOST, of_plus),
        ] {
            let run = call(&object, state(acc, 1, 0, 0, &[0; 4]), vec![], 1);
            let next = if goes { 0 } else { 2 };
            assert_eq!((run.number, run.value), (0, 1));
            assert_eq!(run.state, state(acc, next, 0, 0, &[0; 4]), "{name} {acc}");
        }
    }
}

/// A fault is met without budget, STOP is not; both leave the next order at themselves.
#[test]
fn endings_and_the_budget() {
    let before = |next| state(9, next, 0, 0, &[1, 2, 3, 4]);
    let after = |next, ending| state(9, next, 0, ending, &[1, 2, 3, 4]);
    let faults = object(&["DIV K 0", "SHL K 32", "SHR K 99", "SEND - 0", "STOP - 0"]);
    for (next, fault) in [(0, 1), (1, 3), (2, 3), (3, 4)] {
        for budget in [0, 1, 2, u32::MAX] {
            let run = call(&faults, before(next), vec![1, 2, 3], budget);
            assert_eq!((run.number, run.value), (fault, 0), "budget {budget}");
            assert_eq!(run.state, after(next, fault));
            assert_eq!(run.output, [1, 2, 3]);
        }
    }
    let run = call(&faults, before(4), vec![], 0);
    assert_eq!((run.number, run.value), (0, 0));
    assert_eq!(run.state, before(4));
    for budget in [1, 2, u32::MAX] {
        let run = call(&faults, before(4), vec![], budget);
        assert_eq!((run.number, run.value), (20, 1));
        assert_eq!(run.state, after(4, 20));
    }
    // each ending is reported again, also where the next order is another
    for ending in [1, 2, 3, 4, 20] {
        for budget in [0, 1, u32::MAX] {
            let run = call(&faults, after(0, ending), vec![5; 8], budget);
            assert_eq!((run.number, run.value), (ending, 0));
            assert_eq!(run.state, after(0, ending));
            assert_eq!(run.output, [5; 8]);
        }
    }
}

/// NEG and NOT, words kept by STR, and numbers sent behind those sent before.
#[test]
fn sending() {
    let object = object(&[
        "NOT - 0", "STR D 3", "SEND - 0", "NEG - 0", "JMP A 2", "STOP - 0",
    ]);
    let start = state(MOST, 0, 1, 0, &[1, 2, 3, 4]);
    let run = call(&object, start, vec![0xEE; 15], 100);
    // sent: the least word, and its negation, which wraps to itself; then the room is full
    assert_eq!((run.number, run.value), (4, 8));
    let mut output = vec![0xEE; 4];
    output.extend([0x80, 0, 0, 0, 0x80, 0, 0, 0, 0xEE, 0xEE, 0xEE]);
    assert_eq!(run.output, output);
    assert_eq!(run.state, state(LEAST, 2, 3, 4, &[1, 2, 3, LEAST]));
}

/// Slices of no bytes, as Rust has them: their pointers lead to no memory.
#[test]
fn empty_slices() {
    let run = |object: &[u8], state: &mut [u8]| {
        let reply = skimp::run(object, state, &mut [], 1);
        (reply.number, reply.value)
    };
    assert_eq!(run(&[], &mut []), (21, 0));
    assert_eq!(run(WORKED, &mut []), (26, 0));
    assert_eq!(run(b"BOX\t0\t0\t1\nSTOP\t-\t0\n", &mut [0; 28]), (20, 1));
    let sends = b"BOX\t0\t0\t2\nSEND\t-\t0\nSTOP\t-\t0\n";
    assert_eq!(run(sends, &mut [0; 28]), (4, 0));
}
