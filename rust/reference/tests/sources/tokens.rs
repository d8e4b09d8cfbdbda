//! From cells to tokens.

use crate::{check, check_third};

#[test]
fn keywords() {
    check(&[
        ("%BEGINBEGIN", "7 at 1"),
        ("%BEGINX", "5 at 1"),
        ("%BEGI", "5 at 1"),
        ("%END", "5 at 1"),
        ("%ENDOFPROGRAMME", "5 at 1"),
        ("%INTEGERFN", "5 at 1"),
        ("%IFTHENELSE", "7 at 1"),
        ("%IFTHENELS", "5 at 1"),
        ("%BEGIN;%ROUTINE A", "5 at 2"),
    ]);
    check_third(&[
        ("%IF A=B %THEN A=1 %ELSEIF", "7 at 3"),
        // keyword letters are no letters of a name
        ("CA%T = 1", "5 at 3"),
        ("A%IF", "7 at 3"),
    ]);
}

#[test]
fn names() {
    let long = "N".repeat(120);
    let other = format!("{long}M");
    check(&[
        (
            &format!("%BEGIN;%INTEGER {long},{};%ENDOFPROGRAM", &long[1..]),
            "SHEET 2 0",
        ),
        (
            &format!("%BEGIN;%INTEGER {long};SEND({other});%ENDOFPROGRAM"),
            "8 at 3",
        ),
        (
            "%BEGIN;%INTEGER X1A,X1,X;X1=X;%ENDOFPROGRAM",
            "SHEET 3 1; SET 3 W4",
        ),
        ("%BEGIN;%INTEGER 1X;%ENDOFPROGRAM", "7 at 2"),
        (
            "%BEGIN;%INTEGER SENDA,SEN;SEN=SENDA;%ENDOFPROGRAM",
            "SHEET 2 1; SET 3 W2",
        ),
        (
            "%BEGIN;%INTEGER IF;IF=1;%ENDOFPROGRAM",
            "SHEET 1 1; SET 2 K1",
        ),
    ]);
}

#[test]
fn decimals() {
    check_third(&[
        ("A = 0", "SET 2 K0"),
        ("A = 2147483640", "SET 2 K2147483640"),
        ("A = 2147483647", "SET 2 K2147483647"),
        ("A = 2147483648", "6 at 3"),
        ("A = 9999999999", "6 at 3"),
        ("A = 4294967296", "6 at 3"),
        ("A = 4294967297", "6 at 3"),
        ("A = 18446744073709551617", "6 at 3"),
        ("A = 00000000000000000000000000000007", "SET 2 K7"),
        ("A = 00000000000000000000002147483648", "6 at 3"),
        ("A = 12B", "7 at 3"),
        ("A = 1.5", "7 at 3"),
    ]);
}

#[test]
fn quoted() {
    check_third(&[
        ("A = 'FRED'", "SET 2 K1179796804"),
        ("A = ''''", "SET 2 K39"),
        ("A = ''", "6 at 3"),
        ("A = 'JIM''S'", "6 at 3"),
        ("A = 'JI''S'", "SET 2 K1246308179"),
        ("A = 'A' 'B'", "SET 2 K4269890"),
        ("A = 'A''B'", "SET 2 K4269890"),
        ("A = '' ''", "SET 2 K39"),
        ("A = '''' ''''", "SET 2 K2565927"),
        ("A = ''''''''''", "SET 2 K656877351"),
        ("A = ''''''''''''", "6 at 3"),
        ("A = '~~~~'", "SET 2 K2122219134"),
        ("A = 'ABCDE'", "6 at 3"),
        ("A = 'AB'+'C'", "SET 2 + K16706 K67"),
        ("A = 'A'B", "7 at 3"),
        ("A = 1'A'", "7 at 3"),
    ]);
}

#[test]
fn symbols() {
    check_third(&[
        ("A = A ** B", "SET 2 ** W2 W3"),
        ("A = A * * B", "SET 2 ** W2 W3"),
        ("A = A < < B > % > 1", "SET 2 >> << W2 W3 K1"),
        ("A = A ! ! B", "SET 2 !! W2 W3"),
        ("- > 1 ; 1:", "GOTO 2"),
        (
            "%IF A < = B %THEN A=1",
            "IF <= W2 W3; START; SET 2 K1; FINISH",
        ),
        (
            "%IF A > = B %THEN A=1",
            "IF >= W2 W3; START; SET 2 K1; FINISH",
        ),
        ("%IF A = > B %THEN A=1", "7 at 3"),
        ("%IF A <> B %THEN A=1", "7 at 3"),
        (
            "%IF A >- B %THEN A=1",
            "IF > W2 NEG W3; START; SET 2 K1; FINISH",
        ),
        ("%IF A -> B %THEN A=1", "7 at 3"),
        (
            "%IF A <- B %THEN A=1",
            "IF < W2 NEG W3; START; SET 2 K1; FINISH",
        ),
        ("%IF A <<= B %THEN A=1", "7 at 3"),
        ("%IF A << B<<=1 %THEN A=1", "7 at 3"),
        (
            "%IF A <<B<=1 %THEN A=1",
            "IF <= << W2 W3 K1; START; SET 2 K1; FINISH",
        ),
        ("A = A *** B", "7 at 3"),
        ("A = A !!! B", "7 at 3"),
        ("A = A //B", "7 at 3"),
        ("A = A -> B", "7 at 3"),
    ]);
}

/// "the first of 5 and 6 from the left; then 7"
#[test]
fn first_from_the_left() {
    for stray in "\"$.?@[]^_`{|}~".chars() {
        check_third(&[
            (&format!("A = 1{stray}"), "7 at 3"),
            (&format!("{stray}"), "7 at 3"),
            (&format!("{stray} A = ''"), "6 at 3"),
            (&format!("{stray} %X A = ''"), "5 at 3"),
        ]);
    }
    check_third(&[
        ("%X 2147483648", "5 at 3"),
        ("2147483648 %X", "6 at 3"),
        ("'ABCDE' %X", "6 at 3"),
        ("%X 'ABCDE'", "5 at 3"),
        ("%IFX 'ABCDE'", "5 at 3"),
        ("%IF 'ABCDE' %THENX", "6 at 3"),
        (") ( %X", "5 at 3"),
        ("UNKNOWN = %X", "5 at 3"),
        ("0: 0: ''", "6 at 3"),
        // before what the statements in front refuse later, after what they refuse themselves
        ("->5 ; %X", "5 at 4"),
        ("UNKNOWN = 1 ; %X", "8 at 3"),
    ]);
}
