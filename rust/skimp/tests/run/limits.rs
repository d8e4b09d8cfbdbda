//! Objects and frames at the limits, one below and one above, and at half of them, where none is.

use skimp_reference::random::Random;

use crate::call::Call;
use crate::program::{order, state, Program, Style};
use crate::refusals::reply;

/// Holds a long object with one order in place of another to being refused, or not.
fn with_order(
    [variables, temporaries, orders]: [usize; 3],
    place: usize,
    line: &str,
    expected: Option<(u32, u32)>,
) {
    let mut lines = vec!["NEG - 0"; orders - 1];
    lines.push("STOP - 0");
    lines[place] = line;
    let header = format!("BOX {variables} {temporaries} {orders}");
    let got = reply(&format!("{header}\n{}\n", lines.join("\n")));
    // accepted, the state of four words does not fit
    assert_eq!(got, expected.unwrap_or((26, 0)), "{header}, {line}");
}

/// "word not in 2..V+T+1: order", for frames up to the longest, in the first order and in the last.
#[test]
fn words_of_long_frames() {
    for (variables, temporaries, last) in [
        (64, 0, 65),
        (64, 32, 97),
        (65, 32, 98),
        (127, 32, 160),
        (128, 0, 129),
        (128, 31, 160),
        (128, 32, 161),
    ] {
        for (orders, place) in [(2, 0), (2048, 0), (2048, 1024), (2048, 2046)] {
            for name in ["LOAD", "STR", "CMP"] {
                let size = [variables, temporaries, orders];
                let held = |word: usize, refused: bool| {
                    let expected = refused.then_some((23, place as u32));
                    with_order(size, place, &format!("{name} D {word}"), expected);
                };
                for word in [2, 65, last - 1, last] {
                    held(word, false);
                }
                for word in [0, 1, last + 1, last + 2, last + 128, last + 256] {
                    held(word, true);
                }
            }
        }
    }
}

/// "address N or more: order", for objects up to the longest.
#[test]
fn addresses_of_long_objects() {
    for orders in [1023, 1024, 1025, 2047, 2048] {
        for place in [0, 1021, orders - 2] {
            for name in ["JMP", "SKIP", "BE", "BGE"] {
                let held = |address: usize, refused: bool| {
                    let expected = refused.then_some((24, place as u32));
                    let line = format!("{name} A {address}");
                    with_order([128, 32, orders], place, &line, expected);
                };
                for address in [0, 1021, orders - 2, orders - 1] {
                    held(address, false);
                }
                for address in [orders, orders + 1, 2048, 2049, 4096, 65_536] {
                    held(address, true);
                }
            }
        }
    }
}

/// A STOP early and late in an object of the most orders.
#[test]
fn stops_of_long_objects() {
    for place in [0, 1022, 1023, 1024, 1025, 2045, 2046] {
        let early = Some((25, place as u32));
        with_order([128, 32, 2048], place, "STOP - 0", early);
    }
    with_order([128, 32, 2048], 2047, "NEG - 0", Some((25, 2047)));
    with_order([128, 32, 2048], 2047, "JMP A 2047", Some((25, 2047)));
}

/// The longest object, whole and one order longer, and the widest frame.
#[test]
fn the_limits_together() {
    let mut random = Random(7);
    for (size, length) in [
        ([64, 32, 1024], 412),
        ([65, 32, 1025], 416),
        ([127, 32, 2047], 664),
        ([128, 32, 2048], 668),
    ] {
        let mut program = Program::of_size(&mut random, Style::Forward, size);
        let mut call = Call {
            object: program.text(),
            state: vec![0; length],
            output: vec![0; 400],
            budget: 10_000,
        };
        let outcome = call.outcome("at the limits");
        assert!(outcome.number <= 20, "{size:?}: {}", outcome.number);
        // it has a STOP early then
        program.orders.push(order("STOP", '-', 0));
        call.object = program.text();
        let outcome = call.outcome("one order longer");
        let expected = match size {
            [_, _, 2048] => (21, 0),
            [_, _, orders] => (25, orders as u32 - 1),
        };
        assert_eq!((outcome.number, outcome.value), expected, "{size:?}");
    }
}

/// Every word of the longest frame holds what is stored there, to the last order.
#[test]
fn every_word_and_order() {
    let mut orders = Vec::new();
    for word in 2..162 {
        orders.extend([order("LOAD", 'K', 1000 + word), order("STR", 'D', word)]);
    }
    // behind a jump over all that is left
    orders.push(order("JMP", 'A', 2044));
    while orders.len() < 2044 {
        orders.push(order("SEND", '-', 0));
    }
    orders.extend([order("LOAD", 'D', 161), order("SUB", 'D', 129)]);
    orders.extend([order("SEND", '-', 0), order("STOP", '-', 0)]);
    let program = Program {
        variables: 128,
        temporaries: 32,
        orders,
    };
    let call = Call {
        object: program.text(),
        state: vec![0; 668],
        output: vec![0; 8],
        budget: 1000,
    };
    let outcome = call.outcome("every word");
    assert_eq!((outcome.number, outcome.value), (20, 325));
    assert_eq!(outcome.output, [0, 0, 0, 32, 0, 0, 0, 0]);
    let words: Vec<u32> = [0, 0].into_iter().chain(1002..1162).collect();
    assert_eq!(outcome.state, state(32, 2047, 1, 20, &words));
}
