//! Object texts with the number and the place of their refusal, by document 01's rules.

use crate::call::Call;
use crate::program::state;

/// Headers refused with 21.
#[rustfmt::skip]
const BAD_HEADERS: [&str; 37] = [
    "", "\n", "BOX", "BOX 1 1 1", "BOX 1 1\n", "BOX 1 1 1 \n", "BOX 1 1 1 1\n", "BOX  1 1 1\n",
    "BOX 1 1 0\n", "BOX 1 1 2049\n", "BOX 129 1 1\n", "BOX 1 33 1\n", "BOX 01 1 1\n",
    "BOX 129 32 2048\n", "BOX 128 33 2048\n", "BOX 128 32 2049\n", "BOX 256 0 1\n",
    "BOX 1 00 1\n", "BOX 1 1 01\n", "BOX 1 1 \n", "BOX +1 1 1\n", "BOX 1 -1 1\n", "BOX 1 1 1\r\n",
    "BOX_1 1 1\n", "BOX 1 1 1_\n", "box 1 1 1\n", "BOXX 1 1 1\n", "BO 1 1 1\n", " BOX 1 1 1\n",
    "BOX 4294967297 1 1\n", "BOX 1 4294967297 1\n", "BOX 1 1 4294967297\n",
    "BOX 18446744073709551617 1 1\n", "BOX 1 1 99999999999999999999\n", "SHEET 1 1 1\n",
    "\nBOX 1 1 1\n", "BOX 1 1 2147483647\n",
];

/// Records that are good as the middle one of three.
#[rustfmt::skip]
const GOOD_LINES: [&str; 20] = [
    "LOAD D 2", "LOAD D 3", "LOAD K 0", "LOAD K 2147483647", "STR D 2", "JMP A 0", "BE A 1",
    "BGE A 2", "CMP K 7", "OR D 3", "SEND - 0", "NEG - 0", "NOT - 0", "COND K 0", "COND K 1",
    "COND K 2", "COND K 16", "COND K 17", "COND K 2147483646", "COND K 2147483647",
];

/// Lines refused with 22.
#[rustfmt::skip]
const BAD_LINES: [&str; 70] = [
    "", "LOAD", "LOAD D", "LOAD D ", "LOAD D 2 ", "LOAD D 2 0", "LOAD_D 2", "LOAD D_2",
    "_LOAD D 2", "LOAD D 2_", "LOAD D 02", "LOAD K 00", "LOAD K 07", "LOAD K +1", "LOAD K -1",
    "LOAD K 2147483648", "LOAD K 4294967296", "LOAD K 99999999999999999999", "LOAD K 1x",
    "LOAD A 2", "LOAD - 0", "load D 2", "LOADX D 2", "LOA D 2", "LOAD d 2", "LOAD DK 2",
    "LOAD  2", " D 2", "STR K 2", "STR A 2", "STR - 0", "JMP D 2", "JMP K 2", "JMP - 0", "BE D 2",
    "BGE K 1", "B A 1", "BL A 1", "BLEE A 1", "NEG - 1", "NEG K 0", "NEG D 2", "NEG - 00",
    "NEG - ", "NOT A 0", "SEND D 2", "SEND - 5", "STOP - 1", "STOP K 0", "STOP A 0", "BOX 1 1 3",
    "LOAD D 2\r", "CALL A 0", "LOAD D 2\0", "COND D 2", "COND D 3", "COND A 0", "COND A 2",
    "COND - 0", "COND - 2", "COND K", "COND K ", "COND K 02", "COND K 00", "COND K -1",
    "COND K 2147483648", "CON K 2", "CONDS K 2", "cond K 2", "COND K 2 2",
];

/// Calls with a text in which spaces stand for tabs and `_` for a space.
pub fn reply(text: &str) -> (u32, u32) {
    let object = text.replace(' ', "\t").replace('_', " ").into_bytes();
    let call = Call {
        object,
        state: state(0, 0, 0, 0, &[0; 4]),
        output: vec![0xC3; 9],
        budget: 5,
    };
    let outcome = call.outcome(text);
    same_by_read_back(&call.object, (outcome.number, outcome.value));
    (outcome.number, outcome.value)
}

/// Read-back refuses an object with 21 to 25 just where run does, with the same place. It knows of no
/// state.
fn same_by_read_back(object: &[u8], by_run: (u32, u32)) {
    let mut sheet = vec![0; skimp::SHEET_MOST];
    let reply = skimp::raw::read_back(object, &mut sheet);
    let text = String::from_utf8_lossy(object);
    match by_run.0 {
        21..=25 => assert_eq!((reply.number, reply.value), by_run, "{text}"),
        _ => assert!([0, 31].contains(&reply.number), "{text}"),
    }
}

#[test]
fn headers() {
    let good = "STOP - 0\n";
    for header in ["BOX 1 1 1\n", "BOX 2 0 1\n", "BOX 0 2 1\n"] {
        assert_eq!(reply(&format!("{header}{good}")), (20, 1), "{header}");
    }
    for variables in [0, 63, 64, 65, 127, 128] {
        let header = format!("BOX {variables} 32 1\n");
        // accepted, but the state of four words does not fit
        assert_eq!(reply(&format!("{header}{good}")), (26, 0), "{header}");
    }
    for header in BAD_HEADERS {
        assert_eq!(reply(&format!("{header}{good}")), (21, 0), "{header:?}");
    }
}

#[test]
fn lines() {
    for line in GOOD_LINES {
        let text = format!("BOX 1 1 3\nNEG - 0\n{line}\nSTOP - 0\n");
        assert!(reply(&text).0 <= 20, "{line} is refused");
    }
    for line in BAD_LINES {
        let text = format!("BOX 1 1 3\nNEG - 0\n{line}\nSTOP - 0\n");
        assert_eq!(reply(&text), (22, 1), "{line:?}");
    }
}

#[test]
fn number_of_lines() {
    let two = "NEG - 0\nSTOP - 0\n";
    assert_eq!(reply(&format!("BOX 1 1 2\n{two}")), (20, 2));
    assert_eq!(reply(&format!("BOX 1 1 3\n{two}")), (22, 2));
    for orders in [1023, 1024, 1025, 2047, 2048] {
        assert_eq!(reply(&format!("BOX 1 1 {orders}\n{two}")), (22, 2));
    }
    assert_eq!(reply(&format!("BOX 1 1 1\n{two}")), (22, 1));
    assert_eq!(reply("BOX 1 1 2\n"), (22, 0));
    assert_eq!(reply("BOX 1 1 2\nNEG - 0\nSTOP - 0"), (22, 1));
    assert_eq!(reply("BOX 1 1 2\nNEG - 0"), (22, 0));
    for extra in ["\n", "x", "_", "\0", "STOP - 0\n", " "] {
        let text = format!("BOX 1 1 2\n{two}{extra}");
        assert_eq!(reply(&text), (22, 2), "{extra:?}");
    }
}

/// Each text is wrong in two ways. The reply is the one that document 01 puts first.
#[test]
fn order_of_checks() {
    for (text, expected) in [
        // 21 before all others
        ("BOX 129 1 1\nNEG - 0\nx", (21, 0)),
        // 22 on a later line, or behind the last, before 23, 24 and 25
        ("BOX 1 1 3\nLOAD D 9\nNEG - 1\nSTOP - 0\n", (22, 1)),
        ("BOX 1 1 3\nJMP A 3\nSTOP - 0\nNEG - 1\n", (22, 2)),
        ("BOX 1 1 2\nLOAD D 9\nNEG - 0\nx", (22, 2)),
        // the first of 23 and 24
        ("BOX 1 1 4\nNEG - 0\nLOAD D 4\nJMP A 4\nSTOP - 0\n", (23, 1)),
        ("BOX 1 1 4\nNEG - 0\nJMP A 4\nLOAD D 4\nSTOP - 0\n", (24, 1)),
        ("BOX 1 1 4\nJMP A 4\nNEG - 0\nJMP A 5\nSTOP - 0\n", (24, 0)),
        // 23 and 24 on a later line before 25
        ("BOX 1 1 3\nSTOP - 0\nLOAD D 1\nSTOP - 0\n", (23, 1)),
        ("BOX 1 1 3\nSTOP - 0\nNEG - 0\nJMP A 3\n", (24, 2)),
        // an early STOP before a missing last one; of early ones the first
        ("BOX 1 1 4\nNEG - 0\nSTOP - 0\nSTOP - 0\nNEG - 0\n", (25, 1)),
        ("BOX 1 1 4\nNEG - 0\nNEG - 0\nSTOP - 0\nSTOP - 0\n", (25, 2)),
        ("BOX 1 1 3\nNEG - 0\nNEG - 0\nJMP A 0\n", (25, 2)),
        ("BOX 1 1 1\nNEG - 0\n", (25, 0)),
        // 25 before 26
        ("BOX 0 0 1\nNEG - 0\n", (25, 0)),
    ] {
        assert_eq!(reply(text), expected, "{text:?}");
    }
}

#[test]
fn words_and_addresses_at_their_limits() {
    let one = |line: &str| reply(&format!("BOX 1 1 2\n{line}\nSTOP - 0\n"));
    for name in ["LOAD", "STR", "DIV", "CMP"] {
        for (word, refused) in [(0, true), (1, true), (2, false), (3, false), (4, true)] {
            let got = one(&format!("{name} D {word}"));
            assert_eq!(got == (23, 0), refused, "{name} D {word}");
        }
        assert_eq!(one(&format!("{name} D 2147483647")), (23, 0));
    }
    for name in ["JMP", "BE", "BNE", "BLT", "BLE", "BGT", "BGE"] {
        for (address, refused) in [(0, false), (1, false), (2, true), (3, true)] {
            let got = one(&format!("{name} A {address}"));
            assert_eq!(got == (24, 0), refused, "{name} A {address}");
        }
        assert_eq!(one(&format!("{name} A 2147483647")), (24, 0));
    }
    // without variables and temporaries there is no word to name
    assert_eq!(reply("BOX 0 0 2\nLOAD D 2\nSTOP - 0\n"), (23, 0));
}
