//! Every refusal in words: its number, its place, and the text that stands there.

use crate::session::{said, Session};

/// Sources, and what is said of them behind the file's name.
const SOURCES: [(u32, &str, &str); 11] = [
    (
        2,
        "%BEGIN\nA\t= 1\n",
        ":2: byte 8, column 2, is 9: byte not allowed [2]\n    A\t= 1",
    ),
    (
        3,
        "%BEGIN\n\n  SEND('A\n",
        ":3: statement 2: source ends in quotes or in a continuation [3]\n    SEND('A",
    ),
    (
        5,
        "%BEGIN\n%INTEGER A; %INTERGER B\n",
        ":2: statement 3: unknown keyword [5]\n    %INTERGER B",
    ),
    (
        6,
        "! note\n%BEGIN\nSEND(2147483648)\n%ENDOFPROGRAM\n",
        ":3: statement 2: constant invalid [6]\n    SEND(2147483648)",
    ),
    (
        7,
        "%BEGIN\n%INTEGER A\nA = %C\n  3 *%C\n -A\n%ENDOFPROGRAM\n",
        ":3: statement 3: no such form, or out of order [7]\n    A = %C\n      3 *%C\n     -A",
    ),
    (
        8,
        "%BEGIN;%INTEGER A;A=B;%ENDOFPROGRAM",
        ":1: statement 3: name unknown, declared twice, or SEND misused [8]\n    A=B",
    ),
    (
        9,
        "%BEGIN\n->7\n->8\n7:\n%ENDOFPROGRAM\n",
        ":3: statement 3: label 0 or over 9999, set twice, or never set [9]\n    ->8",
    ),
    (
        10,
        "%BEGIN\nSEND(1)\n! the end is cut of",
        ":2: statement 2, the last: no %ENDOFPROGRAM [10]\n    SEND(1)",
    ),
    (10, "", ": no statement was read: no %ENDOFPROGRAM [10]"),
    (
        13,
        "%BEGIN\nSEND(1)\n%IF 1 = 1 %THEN %START\n  SEND(2)\n%ENDOFPROGRAM\n",
        ":3: statement 3: group left open, or %FINISH without one [13]\n    %IF 1 = 1 %THEN %START",
    ),
    (
        13,
        "%BEGIN\nSEND(1)\n  %FINISH\n%ENDOFPROGRAM\n",
        ":3: statement 3: group left open, or %FINISH without one [13]\n    %FINISH",
    ),
];

/// The same with sources that are long, or no text.
fn long_sources() -> [(u32, Vec<u8>, String); 4] {
    let labels: String = (1..=65).map(|label| format!("{label}:\n")).collect();
    let limits =
        "over 128 variables, 64 set labels, 16 levels, 16 comparisons, 32 temporaries, or \
                  2,048 orders with STOP";
    let sum = "1+".repeat(150);
    [
        (1, vec![b' '; 16_385], ": source too long [1]".to_string()),
        (
            2,
            b"%BEGIN\n; ! caf\xe9".to_vec(),
            ":2: byte 14, column 8, is 233: byte not allowed [2]\n    ; ! caf\\xe9".to_string(),
        ),
        (
            4,
            format!("%BEGIN\nSEND({sum})\n").into_bytes(),
            // 160 characters are shown
            format!(
                ":2: statement 2: more than 256 cells [4]\n    SEND({} ..",
                &sum[..155]
            ),
        ),
        (
            11,
            format!("%BEGIN\n{labels}%ENDOFPROGRAM\n").into_bytes(),
            format!(":66: statement 66: {limits} [11]\n    65:"),
        ),
    ]
}

/// 12 is with the rooms of commands.rs.
#[test]
fn of_sources() {
    let session = Session::new();
    let texts = SOURCES
        .map(|(number, source, words)| (number, source.as_bytes().to_vec(), words.to_string()));
    let mut numbers = Vec::new();
    for (number, source, words) in texts.into_iter().chain(long_sources()) {
        numbers.push(number);
        session.put("a.skimp", &source);
        let refusal = said(1, &format!("a.skimp{words}"));
        assert_eq!(session.skimp(&["check", "a.skimp"]), refusal);
        assert_eq!(session.skimp(&["compile", "a.skimp"]), refusal);
        let refusal = said(1, &format!("-{words}"));
        assert_eq!(session.skimp_with(&["compile", "-"], &source), refusal);
        assert!(words.contains(&format!(" [{number}]")));
    }
    numbers.sort_unstable();
    numbers.dedup();
    assert_eq!(numbers, [1, 2, 3, 4, 5, 6, 7, 8, 9, 10, 11, 13]);
}

/// Objects with spaces for tabs, and what is said of them behind the file's name.
const OBJECTS: [(u32, &str, &str); 15] = [
    (21, "", ":1: header not of the form or over a limit [21]"),
    (21, "%BEGIN\n", ":1: header not of the form or over a limit [21]\n    %BEGIN"),
    (
        21,
        "BOX 129 0 1\nSTOP - 0\n",
        ":1: header not of the form or over a limit [21]\n    BOX\t129\t0\t1",
    ),
    (
        21,
        "BOX 128 32 2049\nSTOP - 0\n",
        ":1: header not of the form or over a limit [21]\n    BOX\t128\t32\t2049",
    ),
    (
        21,
        "BOX 99999999999999999999 0 1\nSTOP - 0\n",
        ":1: header not of the form or over a limit [21]\n    BOX\t99999999999999999999\t0\t1",
    ),
    (
        22,
        "BOX 0 0 3\nNEG - 0\nNEGG - 0\nSTOP - 0\n",
        ":3: line 1: not as many good lines as the header says [22]\n    NEGG\t-\t0",
    ),
    (
        22,
        "BOX 0 0 3\nNEG - 0\nSTOP - 0\n",
        ":4: line 2 is missing: not as many good lines as the header says [22]",
    ),
    (
        22,
        "BOX 0 0 1\nSTOP - 0\nSTOP - 0\n",
        ":3: text behind the last of 1 lines: not as many good lines as the header says [22]\n    STOP\t-\t0",
    ),
    (
        23,
        "BOX 1 0 2\nLOAD D 3\nSTOP - 0\n",
        ":2: order 0: word outside the variables and temporaries [23]\n    LOAD\tD\t3",
    ),
    (
        24,
        "BOX 0 0 3\nNEG - 0\nJMP A 3\nSTOP - 0\n",
        ":3: order 1: address behind the last order [24]\n    JMP\tA\t3",
    ),
    (
        24,
        "BOX 0 0 3\nNEG - 0\nSKIP A 3\nSTOP - 0\n",
        ":3: order 1: address behind the last order [24]\n    SKIP\tA\t3",
    ),
    (
        25,
        "BOX 0 0 2\nSTOP - 0\nSTOP - 0\n",
        ":2: order 0: last order not STOP, or STOP earlier [25]\n    STOP\t-\t0",
    ),
    (
        25,
        "BOX 0 0 2\nNEG - 0\nNEG - 0\n",
        ":3: order 1: last order not STOP, or STOP earlier [25]\n    NEG\t-\t0",
    ),
    (
        31,
        "BOX 0 0 2\nNEG - 0\nSTOP - 0\n",
        ": good object, but no sheet translates to it [31]",
    ),
    // no IF is before it
    (
        31,
        "BOX 0 0 2\nSKIP A 1\nSTOP - 0\n",
        ": good object, but no sheet translates to it [31]",
    ),
];

/// 26 is with the states of run.rs, 32 with the rooms of commands.rs.
#[test]
fn of_objects() {
    let session = Session::new();
    let mut numbers = Vec::new();
    for (number, object, words) in OBJECTS {
        numbers.push(number);
        session.put("a.box", object.replace(' ', "\t"));
        let refusal = said(1, &format!("a.box{words}"));
        assert_eq!(session.skimp(&["readback", "a.box"]), refusal);
        if number == 31 {
            // a good object runs
            assert_eq!(session.skimp(&["run", "a.box"]).status, Some(0));
        } else {
            assert_eq!(session.skimp(&["run", "a.box"]), refusal);
            assert_eq!(session.skimp(&["run", "a.box", "--trace"]), refusal);
        }
    }
    numbers.dedup();
    assert_eq!(numbers, [21, 22, 23, 24, 25, 31]);
}

/// A text without end is refused for its front.
#[test]
fn endless_files() {
    let session = Session::new();
    let ran = session.skimp(&["check", "/dev/zero"]);
    assert_eq!(ran, said(1, "/dev/zero: source too long [1]"));
    let ran = session.skimp(&["run", "/dev/zero"]);
    assert_eq!(ran.status, Some(1));
    assert!(ran
        .err
        .starts_with("/dev/zero:1: header not of the form or over a limit [21]\n"));
    assert!(ran.err.len() < 1000);
}
