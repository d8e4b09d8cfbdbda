//! COND by itself, and the orders of a joined condition: every number worked out by hand.

use crate::program::state;
use crate::vectors::{call, object};

/// COND "does nothing" but for its step, whatever its number: the accumulator and all words stay, and
/// the order behind it is next.
#[test]
fn cond() {
    for count in [0, 1, 2, 16, 17, 2_147_483_647] {
        let object = object(&["NEG - 0", &format!("COND K {count}"), "STOP - 0"]);
        for acc in [0x8000_0000, u32::MAX, 0, 1, 2, 0x7FFF_FFFF] {
            let words = [1, 2, acc, 4];
            let start = state(acc, 1, 0, 0, &words);
            let run = call(&object, start.clone(), vec![], 0);
            assert_eq!((run.number, run.value), (0, 0));
            assert_eq!(run.state, start);
            let run = call(&object, start.clone(), vec![], 1);
            assert_eq!((run.number, run.value), (0, 1));
            assert_eq!(run.state, state(acc, 2, 0, 0, &words));
            let run = call(&object, start, vec![], 2);
            assert_eq!((run.number, run.value), (20, 2));
            assert_eq!(run.state, state(acc, 2, 0, 20, &words));
        }
    }
}

/// The report's `sc1 %AND (sc2 %OR sc3)` as an object: the steps and the number sent for every answer.
#[test]
fn joined_condition() {
    let object = "BOX 3 0 16; COND K 3; LOAD D 2; CMP K 1; BNE A 13; LOAD D 3; CMP K 1; BE A 10; \
                  LOAD D 4; CMP K 1; BNE A 13; LOAD K 8; SEND - 0; SKIP A 15; LOAD K 9; SEND - 0; \
                  STOP - 0";
    let object = object.replace("; ", "\n").replace(' ', "\t") + "\n";
    // COND, three orders of each comparison tried, LOAD and SEND, the SKIP behind the first, STOP
    for (answers, sent, steps) in [
        ([0, 0, 0], 9, 7),
        ([0, 0, 1], 9, 7),
        ([0, 1, 0], 9, 7),
        ([0, 1, 1], 9, 7),
        ([1, 0, 0], 9, 13),
        ([1, 0, 1], 8, 14),
        ([1, 1, 0], 8, 11),
        ([1, 1, 1], 8, 11),
    ] {
        let words = [0, 0, answers[0], answers[1], answers[2]];
        let start = state(0, 0, 0, 0, &words);
        let run = call(object.as_bytes(), start, vec![0; 4], 100);
        assert_eq!((run.number, run.value), (20, steps), "{answers:?}");
        assert_eq!(run.output, [0, 0, 0, sent], "{answers:?}");
    }
}
