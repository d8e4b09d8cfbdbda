//! States that fit their object and states that do not, one cause at a time.

use crate::call::Call;
use crate::program::state;

const WORDS: [u32; 5] = [1, 2, 3, 4, 5];
const OBJECT: &[u8] = b"BOX\t2\t1\t4\nLOAD\tD\t4\nSEND\t-\t0\nJMP\tA\t0\nSTOP\t-\t0\n";
const ORDERS: u32 = 4;
const OUTPUT: usize = 11;
const ROOM: u64 = 2;

/// Whether the call is refused with 26 at place 0.
fn refused(state: Vec<u8>, output: usize) -> bool {
    let call = Call {
        object: OBJECT.to_vec(),
        state,
        output: vec![0x99; output],
        budget: 3,
    };
    let outcome = call.outcome("states");
    if outcome.number == 26 {
        assert_eq!(outcome.value, 0, "26 has place 0");
    }
    outcome.number == 26
}

/// Holds every value of a cause to being refused or not.
fn hold<T: Copy + std::fmt::Debug>(cause: &str, values: &[T], bad: bool, test: impl Fn(T) -> bool) {
    for &value in values {
        assert_eq!(test(value), bad, "{cause} {value:?}");
    }
}

#[test]
fn length() {
    let good = state(0, 0, 0, 0, &WORDS);
    let resized = |length: usize| {
        let mut state = good.clone();
        state.resize(length, 0);
        refused(state, OUTPUT)
    };
    hold("length", &[40], false, resized);
    let bad = [
        0, 1, 4, 16, 19, 20, 21, 24, 28, 36, 37, 38, 39, 41, 42, 43, 44, 60, 80, 412, 668, 5000,
    ];
    hold("length", &bad, true, resized);
}

/// "words not V+T+2 in number", for frames up to the longest: a word less or more is refused, and so
/// is a part of one.
#[test]
fn lengths_of_long_frames() {
    for (variables, temporaries, length) in [
        (0, 0, 28),
        (64, 0, 284),
        (64, 32, 412),
        (65, 32, 416),
        (127, 32, 664),
        (128, 0, 540),
        (128, 31, 664),
        (128, 32, 668),
    ] {
        let object = format!("BOX\t{variables}\t{temporaries}\t1\nSTOP\t-\t0\n");
        let number = |length: usize| {
            let call = Call {
                object: object.clone().into_bytes(),
                state: vec![0; length],
                output: Vec::new(),
                budget: 1,
            };
            call.outcome(&object).number
        };
        assert_eq!(number(length), 20, "{object}");
        for other in [20, 24, length - 8, length - 4, length - 1, length + 1] {
            assert_eq!(number(other), 26, "{other} bytes: {object}");
        }
        for other in [length + 4, length + 8, 2 * length, 412, 668, 672, 1024] {
            let expected = if other == length { 20 } else { 26 };
            assert_eq!(number(other), expected, "{other} bytes: {object}");
        }
    }
}

#[test]
fn next_order() {
    let test = |next| refused(state(0, next, 0, 0, &WORDS), OUTPUT);
    hold("next order", &[0, 1, 2, 3], false, test);
    let bad = [
        ORDERS,
        5,
        255,
        256,
        0x0100_0000,
        0x7FFF_FFFF,
        0x8000_0000,
        u32::MAX,
    ];
    hold("next order", &bad, true, test);
    // an ended state is held to the same
    let ended = |next| refused(state(0, next, 0, 20, &WORDS), OUTPUT);
    hold("next order, ended", &[0, 3], false, ended);
    hold("next order, ended", &[ORDERS, u32::MAX], true, ended);
}

#[test]
fn count_sent() {
    let test = |sent| refused(state(0, 0, sent, 0, &WORDS), OUTPUT);
    hold("count sent", &[0, 1, ROOM], false, test);
    let bad = [
        ROOM + 1,
        4,
        OUTPUT as u64,
        1 << 30,
        (1 << 30) + 1,
        1 << 32,
        (1 << 32) + 1,
        1 << 56,
        1 << 62,
        (1 << 62) + 1,
        1 << 63,
        u64::MAX,
    ];
    hold("count sent", &bad, true, test);
    let ended = |sent| refused(state(0, 0, sent, 4, &WORDS), OUTPUT);
    hold("count sent, ended", &[ROOM], false, ended);
    hold("count sent, ended", &[ROOM + 1], true, ended);
}

/// The room is a quarter of the output's bytes, rounded down.
#[test]
fn room() {
    for output in 0..=33 {
        let room = output as u64 / 4;
        let test = |sent| refused(state(0, 0, sent, 0, &WORDS), output);
        hold("room", &[room], false, test);
        hold("room", &[room + 1], true, test);
    }
}

#[test]
fn ending() {
    let test = |ending| refused(state(0, 0, 0, ending, &WORDS), OUTPUT);
    hold("ending", &[0, 1, 2, 3, 4, 20], false, test);
    let between: Vec<u32> = (5..20).chain(21..64).collect();
    hold("ending", &between, true, test);
    // the low byte or the high byte alone would be good
    let bad = [
        0x100,
        0x101,
        0x114,
        0x0001_0000,
        0x0100_0000,
        0x1400_0000,
        0x8000_0000,
        0x8000_0014,
        u32::MAX,
        u32::MAX - 3,
    ];
    hold("ending", &bad, true, test);
}
