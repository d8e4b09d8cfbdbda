//! The forms of conditions, by hand.

use super::{check, refused};
use crate::{check as check_sources, check_third};

#[test]
fn runs() {
    check(&[
        ("A=1", "= W2 K1"),
        ("A=1 %AND B=2", "AND 2 = W2 K1 = W3 K2"),
        ("A=1 %OR B=2", "OR 2 = W2 K1 = W3 K2"),
        ("A<1 %AND B#2 %AND CAT>=3", "AND 3 < W2 K1 # W3 K2 >= W4 K3"),
        ("A<=1 %OR B>2 %OR CAT=3", "OR 3 <= W2 K1 > W3 K2 = W4 K3"),
        // the report's, pages 9, 46, 48 and 49
        (
            "A=0 %AND (B=0 %OR CAT=0 %OR 1=0)",
            "AND 2 = W2 K0 OR 3 = W3 K0 = W4 K0 = K1 K0",
        ),
        (
            "((A=1 %AND A=2) %OR A=3) %AND A=4",
            "AND 2 OR 2 AND 2 = W2 K1 = W2 K2 = W2 K3 = W2 K4",
        ),
        (
            "(A=1 %OR A=2 %OR A=3) %AND (A=4 %OR A=5)",
            "AND 2 OR 3 = W2 K1 = W2 K2 = W2 K3 OR 2 = W2 K4 = W2 K5",
        ),
        (
            "A=1 %OR ((A=2 %OR A=3) %AND A=4 %AND A=5)",
            "OR 2 = W2 K1 AND 3 OR 2 = W2 K2 = W2 K3 = W2 K4 = W2 K5",
        ),
    ]);
}

/// "merges nested runs of the same joining word", through brackets too, the members in their order.
#[test]
fn merged_runs() {
    for word in ["AND", "OR"] {
        let expected = format!("{word} 4 = W2 K1 = W2 K2 = W2 K3 = W2 K4");
        for condition in [
            "A=1 & A=2 & A=3 & A=4",
            "(A=1 & A=2) & A=3 & A=4",
            "A=1 & (A=2 & A=3) & A=4",
            "A=1 & A=2 & (A=3 & A=4)",
            "(A=1 & A=2) & (A=3 & A=4)",
            "A=1 & (A=2 & (A=3 & A=4))",
            "((A=1 & A=2) & A=3) & A=4",
            "(A=1 & (A=2 & A=3)) & A=4",
            "(((A=1))) & ((A=2 & (A=3) & ((A=4))))",
            "(A=1 & A=2 & A=3 & A=4)",
            "((((A=1) & (A=2)) & ((A=3) & (A=4))))",
        ] {
            let condition = condition.replace('&', &format!("%{word}"));
            check(&[(&condition, &expected)]);
        }
    }
    check(&[
        (
            "(A=1 %AND (A=2 %OR (A=3 %OR A=4))) %AND A=5",
            "AND 3 = W2 K1 OR 3 = W2 K2 = W2 K3 = W2 K4 = W2 K5",
        ),
        (
            "((A=1 %OR A=2) %OR (A=3 %AND (A=4 %AND A=5))) %OR A=6",
            "OR 4 = W2 K1 = W2 K2 AND 3 = W2 K3 = W2 K4 = W2 K5 = W2 K6",
        ),
    ]);
}

/// A bracket where a comparison may begin holds a condition or an expression, never both.
#[test]
fn brackets() {
    check(&[
        ("(A=1)", "= W2 K1"),
        ("((A=1))", "= W2 K1"),
        ("(A)=1", "= W2 K1"),
        ("((A))=1", "= W2 K1"),
        ("((A)=1)", "= W2 K1"),
        ("(((A))=((1)))", "= W2 K1"),
        ("(A+B)=1", "= + W2 W3 K1"),
        ("(A+B)*2=1", "= * + W2 W3 K2 K1"),
        ("((A+B)*2)=1", "= * + W2 W3 K2 K1"),
        ("((A+B)*2=1)", "= * + W2 W3 K2 K1"),
        ("(((A+B)*2)-1=1)", "= - * + W2 W3 K2 K1 K1"),
        ("(-A)=1", "= NEG W2 K1"),
        ("(-A=1)", "= NEG W2 K1"),
        ("((-A)=1)", "= NEG W2 K1"),
        ("(\\A**2)=(1)", "= ** NOT W2 K2 K1"),
        ("+(A)=1", "= W2 K1"),
        ("(+A=1)", "= W2 K1"),
        ("(A)=1 %AND (B)=2", "AND 2 = W2 K1 = W3 K2"),
        ("((A)=1 %AND (B)=2)", "AND 2 = W2 K1 = W3 K2"),
        ("(A)=1 %AND (B=2)", "AND 2 = W2 K1 = W3 K2"),
        ("(A=1) %AND (B)=2", "AND 2 = W2 K1 = W3 K2"),
        ("(A-(B-1))=(2)", "= - W2 - W3 K1 K2"),
        ("((A-(B-1))=(2))", "= - W2 - W3 K1 K2"),
        ("(A)-(B)=(A)-(B)", "= - W2 W3 - W2 W3"),
        ("((A)-(B)=1 %OR ((A)=(B)))", "OR 2 = - W2 W3 K1 = W2 W3"),
    ]);
    refused(&[
        // a condition is no operand
        "(1=1)=1",
        "1=(2=2)",
        "-(1=1)",
        "+(1=1)",
        "\\(1=1)",
        "(1=1)+1=2",
        "2=1+(1=1)",
        "(1=1)*2",
        "-(1=1)=1",
        "(A=1)=(B=1)",
        "((A=1)=1)",
        "((A=1)+1)=1",
        "((A=1)+1=1)",
        "1+(A=1)=1",
        "(A=1 %AND B=1)=1",
        "(A=1 %AND B=1)+1=1",
        "A=1 %AND (B=1)+1=2",
        // an expression is no condition
        "(A)",
        "A",
        "((A))",
        "(A+1)",
        "A=1 %AND B",
        "A %AND B=1",
        "A=1 %AND (B)",
        "(A) %AND B=1",
        "(A %AND B)=1",
        "(A %AND)=1",
        "(A+B %OR)*2=1",
        "(A=1) %AND (B+1)",
    ]);
}

/// "Mixing the two without brackets is refusal 7."
#[test]
fn two_words_at_one_level() {
    refused(&[
        "A=1 %AND A=2 %OR A=3",
        "A=1 %OR A=2 %AND A=3",
        "A=1 %AND A=2 %AND A=3 %OR A=4",
        "A=1 %OR A=2 %OR A=3 %AND A=4",
        "A=1 %AND A=2 %OR A=3 %AND A=4",
        "(A=1 %AND A=2 %OR A=3)",
        "A=0 %AND (A=1 %AND A=2 %OR A=3)",
        "(A=1 %OR A=2 %AND A=3) %AND A=4",
        "(A=1) %AND (A=2) %OR (A=3)",
        "(A=1 %AND A=2) %OR A=3 %AND A=4",
        "A=1 %AND (A=2 %OR A=3) %OR A=4",
        "A=1 %OR (A=2 %OR A=3) %AND A=4",
        "(A=1 %OR A=2) %OR A=3 %AND A=4",
    ]);
    check(&[
        (
            "(A=1 %AND A=2) %OR A=3",
            "OR 2 AND 2 = W2 K1 = W2 K2 = W2 K3",
        ),
        (
            "A=1 %AND (A=2 %OR A=3)",
            "AND 2 = W2 K1 OR 2 = W2 K2 = W2 K3",
        ),
    ]);
}

/// A member that is missing, a bracket that is missing or in a wrong place, and words in wrong places.
#[test]
fn missing_members() {
    refused(&[
        "",
        "()",
        "%AND",
        "%OR",
        "%AND A=1",
        "%OR A=1",
        "A=1 %AND",
        "A=1 %OR",
        "A=1 %AND %AND B=1",
        "A=1 %AND %OR B=1",
        "A=1 %OR %OR B=1",
        "A=1 B=1",
        "A=1 (B=1)",
        "(A=1)(B=1)",
        "(A=1) B=1",
        "A=1 %AND ()",
        "() %AND A=1",
        "A=1 %AND () %AND B=1",
        "(A=1 %AND) B=1",
        "A=1 (%AND B=1)",
        "(%AND A=1)",
        "(A=1 %OR)",
        "(%OR)",
        "(A=1",
        "A=1)",
        "((A=1)",
        "(A=1))",
        "(A=1 %AND B=1",
        "A=1 %AND B=1)",
        "A=1 %AND (B=1",
        "(A=1) %AND B=1)",
        "A=(1 %AND B=1)",
        "(A=1 %AND B)=1",
        "(A %AND B=1)",
        "A=1 %AND (B=1 %OR A=2",
        "A=(1) %AND B)=1",
        "A=1 %AND B=1=1",
        "A=1=1 %AND B=1",
        "A= %AND B=1",
        "A=1 %AND =1",
        "=1 %AND B=1",
        "A=1, B=1",
        "A=1 & B=1",
        "A=1 ! B=1",
    ]);
    check_third(&[
        ("%IF A=1 %THEN A=1 %AND A=2", "7 at 3"),
        ("%IF A=1 %THEN %AND A=2", "7 at 3"),
        ("%IF A=1 %AND %THEN A=1", "7 at 3"),
        ("%AND", "7 at 3"),
        ("%OR A=1", "7 at 3"),
        ("A=1 %AND A=2", "7 at 3"),
        ("A=(1=1)", "7 at 3"),
        ("SEND(A=1 %AND A=2)", "7 at 3"),
        ("SEND(1) %AND SEND(2)", "7 at 3"),
        ("->1 %OR ->2", "7 at 3"),
        ("1: %AND A=1", "7 at 3"),
        ("%IF A=1 %THEN %START %AND A=1", "7 at 3"),
        ("%IF A=1 %THEN A=1 %ELSE %OR A=2", "7 at 3"),
    ]);
}

/// `%AND` and `%OR` are keywords as the others are.
#[test]
fn keywords() {
    check(&[
        ("A=1%ANDB=1", "5 at 3"),
        ("A=1%AND B=1", "AND 2 = W2 K1 = W3 K1"),
        ("A=1%and B=1", "AND 2 = W2 K1 = W3 K1"),
        ("A=1%oR(B=1)", "OR 2 = W2 K1 = W3 K1"),
        ("A=1 %A %N%D B=1", "AND 2 = W2 K1 = W3 K1"),
        ("A=1 %A ND B=1", "5 at 3"),
        ("A=1 %O B=1", "5 at 3"),
        ("A=1 %O %R B=1", "OR 2 = W2 K1 = W3 K1"),
        ("A=1 %AND%C\n B=1", "AND 2 = W2 K1 = W3 K1"),
        ("A=1 %ANDC\n B=1", "AND 2 = W2 K1 = W3 K1"),
        ("A=1 %C\n%OR %C\nB=1", "OR 2 = W2 K1 = W3 K1"),
        ("A=1 %NAND B=1", "5 at 3"),
        ("A=1 %XOR B=1", "5 at 3"),
        ("A=1 %NOT B=1", "5 at 3"),
        ("A=1 %ANDAND B=1", "7 at 3"),
        ("A=1 %ANDOR B=1", "7 at 3"),
        ("A=1 %ANDX B=1", "5 at 3"),
        ("A=1 AND B=1", "7 at 3"),
        ("A=1 OR 1=1", "7 at 3"),
        // the first of 5 and 6 from the left, before 7
        ("A=1 %AND %OR '' %X", "6 at 3"),
        ("A=1 %AND %OR %X ''", "5 at 3"),
    ]);
    check_sources(&[
        (
            "%BEGIN;%INTEGER AND,OR;%IF AND=OR%ANDOR(OR)=AND%THEN OR=1;%ENDOFPROGRAM",
            "7 at 3",
        ),
        (
            "%BEGIN;%INTEGER AND,OR;%IF AND=OR%AND(OR)=AND%THEN OR=1;%ENDOFPROGRAM",
            "SHEET 2 2; IF AND 2 = W2 W3 = W3 W2; START; SET 3 K1; FINISH",
        ),
        ("%AND", "7 at 1"),
        ("%BEGINAND", "7 at 1"),
    ]);
    // an IF with keywords run together
    check_third(&[("%IFA=1", "5 at 3")]);
}

/// Groups, ELSE, labels and jumps with joined conditions, and names and labels of no use in them.
#[test]
fn around_conditions() {
    check_third(&[
        (
            "1:%IF A=1 %AND B=1 %THEN ->1 %ELSE ->2;2:",
            "IF AND 2 = W2 K1 = W3 K1; START; GOTO 1; ELSE; GOTO 4; FINISH",
        ),
        (
            "%IF A=1 %OR B=1 %THEN %START;%IF A=2 %AND B=2 %THEN A=3;%FINISH %ELSE %START;SEND(A);%FINISH",
            "IF OR 2 = W2 K1 = W3 K1; START; IF AND 2 = W2 K2 = W3 K2; START; SET 2 K3; FINISH; \
             ELSE; SEND W2; FINISH",
        ),
        ("%IF A=1 %AND X=1 %THEN A=1", "8 at 3"),
        ("%IF A=1 %AND (B=1 %OR A=SEND) %THEN A=1", "8 at 3"),
        ("%IF X=1 %AND %THEN A=1", "7 at 3"),
        ("%IF A=1 %AND B=1 %THEN ->0", "9 at 3"),
        ("0:%IF A=1 %AND B=1 %THEN A=1", "9 at 3"),
        ("0:%IF A=1 %AND X=1 %THEN A=1", "8 at 3"),
        ("%IF A=1 %AND B=1 %THEN ->7", "9 at 3"),
    ]);
}
