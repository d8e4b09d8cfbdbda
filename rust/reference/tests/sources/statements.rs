//! From bytes to statements.

use crate::{check, check_third, read_line};

#[test]
fn bytes() {
    // "Source is 0 to 16,384 bytes": the length comes before the bytes
    let mut source = b"%BEGIN;%ENDOFPROGRAM\n".to_vec();
    source.resize(16_384, b' ');
    assert_eq!(read_line(&source), "SHEET 0 0");
    source.push(b' ');
    assert_eq!(read_line(&source), "1 at 0");
    source[0] = 0;
    assert_eq!(read_line(&source), "1 at 0");
    source.pop();
    assert_eq!(read_line(&source), "2 at 0");
    source[0] = b'%';
    source[16_383] = 0;
    assert_eq!(read_line(&source), "2 at 16383");
    // "allowed bytes are 10 and 32 to 126", anywhere
    for byte in 0..=255 {
        let source = [b"%BEGIN;'" as &[u8], &[byte], b"';%ENDOFPROGRAM"].concat();
        let expected = match byte {
            // quotes in quotes: two statements to the end of the source
            b'\'' => "3 at 2",
            10 | 32..=126 => "7 at 2",
            _ => "2 at 8",
        };
        assert_eq!(read_line(&source), expected, "{byte}");
    }
    check(&[
        ("\t\r", "2 at 0"),
        ("'\u{7f}\t", "2 at 1"),
        // before all statements, in comments, and after the last statement
        ("A\n%X\n\t", "2 at 5"),
        ("! \t", "2 at 2"),
        ("%BEGIN;%ENDOFPROGRAM;! \t", "2 at 23"),
    ]);
}

#[test]
fn letters() {
    check(&[
        (
            "%begin;%Integer aB;Ab=1;%endOfProgram",
            "SHEET 1 1; SET 2 K1",
        ),
        (
            "%BEGIN;%INTEGER NAME;NAME=1;%ENDOFPROGRAM",
            "SHEET 1 1; SET 2 K1",
        ),
        ("%BEGIN;%INTEGERNAME;%ENDOFPROGRAM", "5 at 2"),
        // "up to the first non-letter, a space included"
        ("%BEGIN;%INTEGER1;%ENDOFPROGRAM", "7 at 2"),
        ("%BEGIN;%INT EGER A;%ENDOFPROGRAM", "5 at 2"),
        ("%BEGIN;%INT %EGER A;%ENDOFPROGRAM", "SHEET 1 0"),
        ("%BEGIN;%I%N%T%E%G%E%R%%A;%ENDOFPROGRAM", "5 at 2"),
        ("%BEGIN;%I%N%T%E%G%E%R%% A;%ENDOFPROGRAM", "SHEET 1 0"),
        ("% BEGIN;%ENDOFPROGRAM", "7 at 1"),
        ("%BEGIN1A", "7 at 1"),
        ("%BEGIN;%END %OF %PRO%GRAM", "SHEET 0 0"),
        ("%BEGIN;%ENDOFPROGRAM;", "SHEET 0 0"),
        // keyword letters end at the end of a statement, at quotes and at a comment
        ("%;BEGIN", "7 at 1"),
        ("%\nBEGIN", "7 at 1"),
        ("%'A'BEGIN", "7 at 1"),
        ("%!\nBEGIN", "7 at 1"),
        ("%BEGIN%;INTEGER A", "7 at 2"),
    ]);
    check_third(&[
        ("a = cat", "SET 2 W4"),
        ("C A T = c at", "SET 4 W4"),
        ("A = 1 2 3", "SET 2 K123"),
        ("A % = % B", "SET 2 W3"),
        ("A = A%1", "8 at 3"),
        ("A = 1%1", "SET 2 K11"),
        ("%A = 1", "5 at 3"),
        ("%IFA=B%THENA=1", "5 at 3"),
        ("%IF A=B%THEN A=1", "IF = W2 W3; START; SET 2 K1; FINISH"),
        ("%I F A=B %THEN A=1", "5 at 3"),
        (
            "%if(A)=B %th %en A=1 %el%se ->1 ;1:",
            "IF = W2 W3; START; SET 2 K1; ELSE; GOTO 4; FINISH",
        ),
        ("send(a)", "SEND W2"),
        ("S E N D(A)", "SEND W2"),
    ]);
}

#[test]
fn quotes() {
    check_third(&[
        ("A = 'a'", "SET 2 K97"),
        ("A = 'A'", "SET 2 K65"),
        ("A = ' '", "SET 2 K32"),
        ("A = '%'", "SET 2 K37"),
        ("A = ';'", "SET 2 K59"),
        ("A = '!'", "SET 2 K33"),
        ("A = '\n'", "SET 2 K10"),
        ("A = '%if'", "SET 2 K2451814"),
        (
            "%IF A = '\n' %THEN B = 1",
            "IF = W2 K10; START; SET 3 K1; FINISH",
        ),
        // a `%` in quotes marks nothing behind them, nor one before them inside
        ("A = '%'%C\n+B", "SET 2 + K37 W3"),
        ("A = '%'+B", "SET 2 + K37 W3"),
        ("A = %'b'", "SET 2 K98"),
        // a C in quotes is no keyword letter
        ("A = '%C\n'", "SET 2 K2441994"),
        ("A = 'C'\nB = 1", "SET 2 K67; SET 3 K1"),
    ]);
    check(&[
        ("'", "3 at 1"),
        ("''", "6 at 1"),
        ("'''", "3 at 1"),
        ("%BEGIN\n\n A = 'X;\n%ENDOFPROGRAM\n", "3 at 2"),
        ("! it's\n%BEGIN;%ENDOFPROGRAM", "SHEET 0 0"),
        ("%BEGIN;%ENDOFPROGRAM;'", "SHEET 0 0"),
        ("%BEGIN;%ENDOFPROGRAM'", "3 at 2"),
    ]);
}

#[test]
fn comments() {
    check(&[
        ("! note", "10 at 0"),
        ("! note\n%BEGIN ; ! note ; %ENDOFPROGRAM", "SHEET 0 0"),
        ("! note %C\n%BEGIN;%ENDOFPROGRAM", "SHEET 0 0"),
        ("! note %\nBEGIN", "7 at 1"),
        ("!;!;!\n  !'\n%BEGIN;;;%ENDOFPROGRAM!", "7 at 2"),
        ("%!x;%BEGIN;;;%ENDOFPROGRAM;!", "SHEET 0 0"),
        // after a dropped C no cell may be held
        ("%C\n! note\n%BEGIN;%ENDOFPROGRAM", "SHEET 0 0"),
        ("%C\n! note;%C\n!%C\n%BEGIN;%ENDOFPROGRAM", "SHEET 0 0"),
        ("%BEGIN%C\n! note\n", "7 at 1"),
    ]);
    check_third(&[
        ("10: ! note", "7 at 3"),
        ("A = B ! note", "8 at 3"),
        ("A ! note\n = 1", "7 at 3"),
        ("A = B !B", "SET 2 ! W3 W3"),
        ("A = 1 ;! note\nB = 2", "SET 2 K1; SET 3 K2"),
    ]);
}

#[test]
fn ends() {
    check(&[
        ("", "10 at 0"),
        (" ", "10 at 0"),
        ("\n;\n %;", "10 at 0"),
        ("%BEGIN", "10 at 1"),
        ("%BEGIN\n", "10 at 1"),
        ("%BEGIN\n\n;%INTEGER A\n! note", "10 at 2"),
        ("%BEGIN;1:", "10 at 2"),
        ("%BEGIN;%ENDOFPROGRAM", "SHEET 0 0"),
        ("%BEGIN\n%ENDOFPROGRAM\n?\n%X '", "SHEET 0 0"),
        // a jump to no label is found at `%ENDOFPROGRAM` only
        ("%BEGIN;->1", "10 at 2"),
    ]);
}

#[test]
fn continuation() {
    check(&[
        ("%BEGIN%C\n;%ENDOFPROGRAM", "SHEET 0 0"),
        ("%BEG%C\n%IN;%ENDOFPROGRAM", "SHEET 0 0"),
        ("%BEG%C\nIN;%ENDOFPROGRAM", "5 at 1"),
        ("%BEGIN%c  \n\n%ENDOFPROGRAM", "SHEET 0 0"),
        ("%BEGIN%C%\n;%ENDOFPROGRAM", "SHEET 0 0"),
        ("%BEGINC\n;%ENDOFPROGRAM", "SHEET 0 0"),
        ("%BEGIN C\n;%ENDOFPROGRAM", "7 at 1"),
        ("%BEGIN%C;%ENDOFPROGRAM", "5 at 1"),
        ("%BEGIN%C!\n;%ENDOFPROGRAM", "5 at 1"),
        // one C goes with each newline
        ("%BEGIN%CC\n\n;%ENDOFPROGRAM", "SHEET 0 0"),
        ("%BEGIN%CC\n;%ENDOFPROGRAM", "5 at 1"),
        ("%C\n%C\n%BEGIN;%ENDOFPROGRAM", "SHEET 0 0"),
        // at the end of the source
        ("%C", "3 at 1"),
        ("%C\n", "10 at 0"),
        ("%BEGIN%C", "3 at 1"),
        ("%BEGIN%C\n", "10 at 1"),
        ("%BEGIN%CC\n", "3 at 1"),
        ("%BEGIN;%ENDOFPROGRAM%C", "3 at 2"),
        ("%BEGIN;%ENDOFPROGRAM%C\n", "SHEET 0 0"),
        ("%BEGIN;%ENDOFPROGRAM;%C", "SHEET 0 0"),
        ("%BEGIN;%C", "3 at 2"),
        ("! %C", "10 at 0"),
        ("%BEGIN;'%C", "3 at 2"),
    ]);
    check_third(&[
        (
            "%IF A = 1 %THEN%C\n B = 2",
            "IF = W2 K1; START; SET 3 K2; FINISH",
        ),
        (
            "%IF A = 1 %THEN %C\n B = 2",
            "IF = W2 K1; START; SET 3 K2; FINISH",
        ),
        (
            "%IF A = 1 %THENC\n B = 2",
            "IF = W2 K1; START; SET 3 K2; FINISH",
        ),
        ("A = 1%C\n2", "SET 2 K12"),
        ("A = C%C\nA%C\nT *%C\n* 2", "SET 2 ** W4 K2"),
        ("A = 'A'%C\n'B'", "SET 2 K4269890"),
        ("A = 'A' %C X\n", "5 at 3"),
    ]);
}
