//! Names and labels, and the order of the checks.

use crate::{check, check_third};

#[test]
fn names() {
    check(&[
        ("%BEGIN;%INTEGER A,A", "8 at 2"),
        ("%BEGIN;%INTEGER A,B;%INTEGER C,B", "8 at 3"),
        ("%BEGIN;%INTEGER SEND", "8 at 2"),
        ("%BEGIN;%INTEGER A,S E ND,B", "8 at 2"),
        ("%BEGIN;A=1", "8 at 2"),
        ("%BEGIN;SEND(A)", "8 at 2"),
        ("%BEGIN;SEND(1);%ENDOFPROGRAM", "SHEET 0 1; SEND K1"),
        (
            "%BEGIN;%INTEGER B,A;A=B;%ENDOFPROGRAM",
            "SHEET 2 1; SET 3 W2",
        ),
    ]);
    check_third(&[
        ("X = 1", "8 at 3"),
        ("A = X", "8 at 3"),
        ("A = 1+(2*X)", "8 at 3"),
        ("SEND = 1", "8 at 3"),
        ("A = SEND", "8 at 3"),
        ("A = -SEND+1", "8 at 3"),
        ("SEND(SEND)", "8 at 3"),
        ("SEND(X)", "8 at 3"),
        ("%IF X=1 %THEN A=1", "8 at 3"),
        ("%IF A=X %THEN A=1", "8 at 3"),
        ("%IF A=1 %THEN X=1", "8 at 3"),
        ("%IF A=1 %THEN A=1 %ELSE A=X", "8 at 3"),
        ("%IF A=1 %THEN A=1 %ELSE SEND=1", "8 at 3"),
        // the form comes first
        ("X = 1+", "7 at 3"),
        ("X(1)", "7 at 3"),
    ]);
}

#[test]
fn labels() {
    check_third(&[
        ("0: A=1", "9 at 3"),
        ("10000: A=1", "9 at 3"),
        ("2147483647: A=1", "9 at 3"),
        ("2147483648: A=1", "6 at 3"),
        ("->0", "9 at 3"),
        ("->10000", "9 at 3"),
        // such a jump is refused by itself, not as one whose label is never set
        ("->0; ?", "9 at 3"),
        ("->10000; ?", "9 at 3"),
        ("->9999; ?", "7 at 4"),
        ("->2147483648", "6 at 3"),
        ("9999: ->9999", "GOTO 1"),
        ("1: ->1", "GOTO 1"),
        ("007: ->7", "GOTO 1"),
        ("7: ->00007", "GOTO 1"),
        ("%IF A=1 %THEN ->0", "9 at 3"),
        ("%IF A=1 %THEN A=1 %ELSE ->10000", "9 at 3"),
        ("1:;A=1;1:A=1", "9 at 5"),
        ("1:1:", "9 at 3"),
        ("1:2:1: A=1", "9 at 3"),
        ("1:01: A=1", "9 at 3"),
        (
            "1:2:3: A=1 ; ->1; ->2; ->3",
            "SET 2 K1; GOTO 1; GOTO 1; GOTO 1",
        ),
        (
            "1:;2:;A=1;3:;->1;->2;->3",
            "SET 2 K1; GOTO 1; GOTO 1; GOTO 2",
        ),
        ("->4;A=1;4:", "GOTO 3; SET 2 K1"),
        (
            "%IF A=1 %THEN ->4 %ELSE ->5; 5: A=1;4:",
            "IF = W2 K1; START; GOTO 5; ELSE; GOTO 4; FINISH; SET 2 K1",
        ),
        ("1:", "SHEET 3 0"),
        // never set: the first such jump
        ("->1", "9 at 3"),
        ("->9999", "9 at 3"),
        ("A=1;->2;->1;2:", "9 at 5"),
        ("A=1;->2;->1", "9 at 4"),
        ("->2;%IF A=1 %THEN ->2 %ELSE ->3;2:;->4", "9 at 4"),
        ("->1;1:;->1;->1;->5;->6", "9 at 7"),
    ]);
}

/// "within one: ... the first of 5 and 6 from the left; then 7, 8, 9, 11"
#[test]
fn order_in_a_statement() {
    check_third(&[
        ("0: X = 1+", "7 at 3"),
        ("0: X = 1", "8 at 3"),
        ("%IF X=1 %THEN ->0", "8 at 3"),
        ("%IF 1=1 %THEN ->0 %ELSE A=X", "8 at 3"),
        ("1: A=1; 1: A=X", "8 at 4"),
    ]);
}

/// "Then statements in order"; a label never set is found at `%ENDOFPROGRAM`.
#[test]
fn order_of_refusals() {
    check_third(&[
        ("->5 ; A=X", "8 at 4"),
        ("A=X ; ->5", "8 at 3"),
        ("->5 ; ->0", "9 at 4"),
        ("->5 ; A=1+", "7 at 4"),
        ("->5 ; 1: %ENDOFPROGRAM", "7 at 4"),
        ("->5 ; A='", "3 at 4"),
        ("A=X ; A='", "8 at 3"),
        ("A=1+ ; A='", "7 at 3"),
        ("A=X ; A=1+", "8 at 3"),
        ("0: ; A=X", "9 at 3"),
        ("->5 ; %ENDOFPROGRAM ; A = X ; %X", "9 at 3"),
        ("%ENDOFPROGRAM ; A = X", "SHEET 3 0"),
    ]);
}
