//! Groups: their forms, the labels in them, their refusals and their levels.

use crate::{check, check_third, read_line};

/// "`%IF .. %THEN %START`, `%FINISH`, and `%FINISH %ELSE %START`"
#[test]
fn forms() {
    check_third(&[
        (
            "%IF A=1 %THEN %START;A=2;%FINISH",
            "IF = W2 K1; START; SET 2 K2; FINISH",
        ),
        (
            "%IF A=1 %THEN %START;A=2;B=3;%FINISH %ELSE %START;SEND(A);%FINISH;A=4",
            "IF = W2 K1; START; SET 2 K2; SET 3 K3; ELSE; SEND W2; FINISH; SET 2 K4",
        ),
        (
            "%IF A=1 %THEN %START;%IF B=1 %THEN A=2 %ELSE A=3;%FINISH",
            "IF = W2 K1; START; IF = W3 K1; START; SET 2 K2; ELSE; SET 2 K3; FINISH; FINISH",
        ),
        (
            "%if a=1 %thenstart;%c\n a=2;%finishelse%st%art\n! note\n;a=3;% %fin%ish",
            "IF = W2 K1; START; SET 2 K2; ELSE; SET 2 K3; FINISH",
        ),
        (
            "%IF A=1 %THEN %C\n %START %C\n;A=2;%FINISH",
            "IF = W2 K1; START; SET 2 K2; FINISH",
        ),
    ]);
}

/// "Any other mixture is 7."
#[test]
fn other_mixtures() {
    check_third(&[
        ("%START", "7 at 3"),
        ("%START;A=1;%FINISH", "7 at 3"),
        ("%IF A=1 %START;A=1;%FINISH", "7 at 3"),
        ("%IF A=1 %THEN;%START;A=1;%FINISH", "7 at 3"),
        ("%IF A=1 %THEN %START A=1;%FINISH", "7 at 3"),
        ("%IF A=1 %THEN %START %FINISH", "7 at 3"),
        ("%IF A=1 %THEN %START %START", "7 at 3"),
        ("%IF A=1 %THEN %START %ELSE A=1", "7 at 3"),
        ("%IF A=1 %THEN %START %ELSE %START", "7 at 3"),
        ("%IF A=1 %THEN A=1 %ELSE %START;A=2;%FINISH", "7 at 3"),
        ("%IF A=1 %THEN A=1 %START", "7 at 3"),
        ("%IF A=1 %THEN %FINISH", "7 at 3"),
        ("%IF A=1 %THEN %START;A=1;%FINISH A=1", "7 at 5"),
        ("%IF A=1 %THEN %START;A=1;%FINISH %ELSE A=2", "7 at 5"),
        ("%IF A=1 %THEN %START;A=1;%FINISH %ELSE", "7 at 5"),
        ("%IF A=1 %THEN %START;A=1;%FINISH %START", "7 at 5"),
        ("%IF A=1 %THEN %START;A=1;%FINISH %FINISH", "7 at 5"),
        (
            "%IF A=1 %THEN %START;A=1;%FINISH %ELSE %START A=2",
            "7 at 5",
        ),
        ("%IF A=1 %THEN %START;A=1;%FINISH;%ELSE %START", "7 at 6"),
        ("%IF A=1 %THEN %START;A=1;%FINISH;%ELSE A=2", "7 at 6"),
        ("%IF A=1 %THEN %START;A=1 %FINISH", "7 at 4"),
        ("%IF A=1 %THEN %START;A=1;A=2 %ELSE A=3", "7 at 5"),
        ("%IF A=1 %THEN %START;1:%FINISH", "7 at 4"),
        ("%IF A=1 %THEN %START;A=1;1:%FINISH", "7 at 5"),
        ("%IF A=1 %THEN %START;A=1;1:%FINISH %ELSE %START", "7 at 5"),
        // a second part has no other behind it
        (
            "%IF A=1 %THEN %START;A=1;%FINISH %ELSE %START;A=2;%FINISH %ELSE %START",
            "7 at 7",
        ),
        // a group holds instructions only
        ("%IF A=1 %THEN %START;%INTEGER D;%FINISH", "7 at 4"),
        ("%IF A=1 %THEN %START;%BEGIN", "7 at 4"),
        ("%IF A=1 %THEN %START;1: %ENDOFPROGRAM", "7 at 4"),
        // no longer an unknown keyword, but others are
        ("%FINISHED", "5 at 3"),
        ("%STAR", "5 at 3"),
        ("%STARTS", "5 at 3"),
        ("%CYCLE", "5 at 3"),
        // a condition is refused before its group is open
        ("%IF X=1 %THEN %START;%FINISH", "8 at 3"),
        ("0:%IF A=1 %THEN %START;%FINISH", "9 at 3"),
    ]);
    check(&[
        ("%FINISH", "7 at 1"),
        ("%FINISH %ELSE %START", "7 at 1"),
        ("%IF 1=1 %THEN %START", "7 at 1"),
    ]);
}

/// "A group with no instruction, labels or none, is refusal 7."
#[test]
fn empty_groups() {
    check_third(&[
        ("%IF A=1 %THEN %START;%FINISH", "7 at 4"),
        ("%IF A=1 %THEN %START;;! note\n;%FINISH", "7 at 4"),
        ("%IF A=1 %THEN %START;1:;2:;%FINISH", "7 at 6"),
        (
            "%IF A=1 %THEN %START;%FINISH %ELSE %START;A=1;%FINISH",
            "7 at 4",
        ),
        (
            "%IF A=1 %THEN %START;A=1;%FINISH %ELSE %START;%FINISH",
            "7 at 6",
        ),
        (
            "%IF A=1 %THEN %START;A=1;%FINISH %ELSE %START;1:;%FINISH",
            "7 at 7",
        ),
        (
            "%IF A=1 %THEN %START;%IF A=1 %THEN %START;%FINISH;%FINISH",
            "7 at 5",
        ),
        // a nested IF fills a group
        (
            "%IF A=1 %THEN %START;%IF A=2 %THEN %START;A=3;%FINISH;%FINISH",
            "IF = W2 K1; START; IF = W2 K2; START; SET 2 K3; FINISH; FINISH",
        ),
    ]);
}

/// "A group left open at `%ENDOFPROGRAM`, or a `%FINISH` without one, is refusal 13 (open: place of
/// the first such `%START`, found before 9; the other: after 7)."
#[test]
fn balance() {
    check_third(&[
        ("%FINISH", "13 at 3"),
        ("A=1;%FINISH", "13 at 4"),
        ("%FINISH %ELSE %START", "13 at 3"),
        ("%FINISH %ELSE", "7 at 3"),
        ("1: %FINISH", "7 at 3"),
        ("%IF A=1 %THEN A=1;%FINISH", "13 at 4"),
        ("%IF A=1 %THEN %START;A=1;%FINISH;%FINISH", "13 at 6"),
        ("%IF A=1 %THEN %START", "13 at 3"),
        ("A=1;%IF A=1 %THEN %START;A=1", "13 at 4"),
        (
            "%IF A=1 %THEN %START;A=1;%IF A=1 %THEN %START;A=1",
            "13 at 3",
        ),
        (
            "%IF A=1 %THEN %START;A=1;%IF A=1 %THEN %START;A=1;%FINISH",
            "13 at 3",
        ),
        (
            "%IF A=1 %THEN %START;A=1;%FINISH;%IF A=1 %THEN %START;A=1",
            "13 at 6",
        ),
        // of a second part, its own `%START`
        (
            "%IF A=1 %THEN %START;A=1;%FINISH %ELSE %START;A=2",
            "13 at 5",
        ),
        // before a label that is never set, after all else
        ("->9;%IF A=1 %THEN %START;A=1", "13 at 4"),
        ("%IF A=1 %THEN %START;->9", "13 at 3"),
        ("->9;%FINISH", "13 at 4"),
        ("%IF A=1 %THEN %START;A=X", "8 at 4"),
        ("%IF A=1 %THEN %START;->0", "9 at 4"),
        ("%IF A=1 %THEN %START;1:;1:", "9 at 5"),
    ]);
    check(&[
        ("%BEGIN;%FINISH", "13 at 2"),
        ("%BEGIN;%FINISH;%INTEGER A", "13 at 2"),
        // no `%ENDOFPROGRAM`
        ("%BEGIN;%IF 1=1 %THEN %START;SEND(1)", "10 at 3"),
    ]);
}

/// "A jump to the place after a group's last instruction means ... the instruction after the whole
/// IF, and so on outwards, or the end."
#[test]
fn labels() {
    check_third(&[
        (
            "1:%IF A=1 %THEN %START;2:A=2;3:;%FINISH;4:->1;->2;->3;->4",
            "IF = W2 K1; START; SET 2 K2; FINISH; GOTO 1; GOTO 2; GOTO 3; GOTO 3",
        ),
        // behind a first part, never the second part's first instruction
        (
            "%IF A=1 %THEN %START;->1;->2;1:;%FINISH %ELSE %START;2:A=2;3:;%FINISH;->3",
            "IF = W2 K1; START; GOTO 5; GOTO 4; ELSE; SET 2 K2; FINISH; GOTO 5",
        ),
        // outwards, over the second part of the IF around it
        (
            "%IF A=1 %THEN %START;%IF A=2 %THEN %START;->1;1:;%FINISH;%FINISH %ELSE %START;A=3;%FINISH",
            "IF = W2 K1; START; IF = W2 K2; START; GOTO 5; FINISH; ELSE; SET 2 K3; FINISH",
        ),
        (
            "%IF A=1 %THEN %START;%IF A=2 %THEN %START;->1;1:;%FINISH %ELSE %START;A=4;2:;%FINISH;\
             3:;%FINISH %ELSE %START;->2;->3;%FINISH;A=5",
            "IF = W2 K1; START; IF = W2 K2; START; GOTO 7; ELSE; SET 2 K4; FINISH; ELSE; GOTO 7; \
             GOTO 7; FINISH; SET 2 K5",
        ),
        // but not over an instruction that follows in the same part
        (
            "%IF A=1 %THEN %START;%IF A=2 %THEN %START;->1;1:;%FINISH %ELSE %START;A=4;%FINISH;\
             A=5;%FINISH %ELSE %START;->1;%FINISH",
            "IF = W2 K1; START; IF = W2 K2; START; GOTO 5; ELSE; SET 2 K4; FINISH; SET 2 K5; ELSE; \
             GOTO 5; FINISH",
        ),
        // two IFs of one level after another do not mix
        (
            "%IF A=1 %THEN %START;->1;1:;%FINISH %ELSE %START;A=2;%FINISH;\
             %IF A=3 %THEN %START;->2;2:;%FINISH %ELSE %START;A=4;%FINISH",
            "IF = W2 K1; START; GOTO 4; ELSE; SET 2 K2; FINISH; IF = W2 K3; START; GOTO 7; ELSE; \
             SET 2 K4; FINISH",
        ),
        // into a group from outside, and to the IF that is in a group
        (
            "->1;->2;%IF A=1 %THEN %START;2:%IF A=2 %THEN %START;1:A=3;%FINISH;%FINISH",
            "GOTO 5; GOTO 4; IF = W2 K1; START; IF = W2 K2; START; SET 2 K3; FINISH; FINISH",
        ),
        // labels are those of the whole program
        ("%IF A=1 %THEN %START;1:A=1;%FINISH;1:", "9 at 6"),
        ("%IF A=1 %THEN %START;->7;%FINISH;->8", "9 at 4"),
    ]);
}

/// So many IFs with groups, each but the last in the one before it.
fn open(levels: usize) -> String {
    "%IF A=1 %THEN %START\n".repeat(levels)
}

/// The reply to a program whose third statement is the first of these.
fn reply(statements: &str) -> String {
    let source = format!("%BEGIN\n%INTEGER A\n{statements}%ENDOFPROGRAM\n");
    let line = read_line(source.as_bytes());
    let start = line.split("; ").next().expect("never empty");
    start.to_string()
}

/// "nested up to 16 deep"; "A lone u counts as a level; deeper is 11."
#[test]
fn levels() {
    let close = |levels| "%FINISH\n".repeat(levels);
    assert_eq!(reply(&(open(16) + "A=2\n" + &close(16))), "SHEET 1 17");
    assert_eq!(reply(&(open(17) + "A=2\n" + &close(17))), "11 at 19");
    for lone in ["%IF A=1 %THEN A=2\n", "%IF A=1 %THEN A=2 %ELSE A=3\n"] {
        let count = if lone.contains("ELSE") { 18 } else { 17 };
        let source = open(15) + lone + &close(15);
        assert_eq!(reply(&source), format!("SHEET 1 {count}"));
        assert_eq!(reply(&(open(16) + lone + &close(16))), "11 at 19");
    }
    // the levels that are open count, not those that were
    let twice = open(16) + "A=2\n" + &close(1) + &open(1) + "A=2\n" + &close(16);
    assert_eq!(reply(&twice), "SHEET 1 19");
    let second = open(16) + "A=2\n%FINISH %ELSE %START\nA=3\n";
    assert_eq!(reply(&(second.clone() + &close(16))), "SHEET 1 18");
    assert_eq!(reply(&(second + &open(1) + &close(17))), "11 at 22");
    // after 8 and 9, at the IF's own statement
    assert_eq!(reply(&(open(16) + "%IF X=1 %THEN %START\n")), "8 at 19");
    assert_eq!(reply(&(open(16) + "0:%IF A=1 %THEN %START\n")), "9 at 19");
    assert_eq!(reply(&(open(16) + "%IF A=1 %THEN ->0\n")), "9 at 19");
    assert_eq!(reply(&(open(16) + "%IF A=1 %THEN %START X\n")), "7 at 19");
    assert_eq!(reply(&(open(17) + "A=X\n")), "11 at 19");
    assert_eq!(reply(&(open(16) + "A=1\n")), "13 at 3");
}

/// Orders are counted at the statement that brings them.
#[test]
fn orders() {
    let sends = |count| "SEND(1)\n".repeat(count);
    let group = "%IF 1=1 %THEN %START\n1:->1\n%FINISH\n";
    // half as many as there may be
    for count in 508..=512 {
        let accepted = format!("SHEET 1 {}", count + 2);
        assert_eq!(reply(&(sends(count) + group)), accepted);
    }
    // three orders, one, and none
    assert_eq!(reply(&(sends(1021) + group)), "SHEET 1 1023");
    assert_eq!(reply(&(sends(1022) + group)), "11 at 1026");
    assert_eq!(
        reply(&(sends(1022) + &open(1) + "1:->1\n%FINISH\n")),
        "11 at 1026"
    );
    assert_eq!(reply(&(sends(1023) + &open(1) + "->0\n")), "11 at 1026");
    // the SKIP, then the second part
    let both = "%IF 1=1 %THEN %START\n1:->1\n%FINISH %ELSE %START\n->1\n%FINISH\n";
    assert_eq!(reply(&(sends(509) + both)), "SHEET 1 512");
    assert_eq!(reply(&(sends(1020) + both)), "SHEET 1 1023");
    assert_eq!(reply(&(sends(1020) + "2:->2\n" + both)), "SHEET 1 1024");
    assert_eq!(reply(&(sends(1021) + both)), "11 at 1027");
    let jumps = "2:->2\n3:->3\n";
    assert_eq!(reply(&(sends(1020) + jumps + both)), "11 at 1028");
    // at the SKIP itself
    assert_eq!(reply(&(sends(1021) + "2:->2\n" + both)), "11 at 1027");
}
