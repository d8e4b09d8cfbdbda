//! Joined conditions in texts that no reference has a part in.

use crate::worked::{object, sheet_of};

/// The examples of the report's Chapter 8, with a comparison of A for each `sc`: their fields, and the
/// orders before the parts.
#[test]
fn examples_of_the_report() {
    for (condition, fields, orders) in [
        (
            "A=1 %AND (A=2 %OR A=3)",
            "AND 2 = W2 K1 OR 2 = W2 K2 = W2 K3",
            "COND K 3; LOAD D 2; CMP K 1; BNE A past; LOAD D 2; CMP K 2; BE A part; LOAD D 2; \
             CMP K 3; BNE A past",
        ),
        (
            "A=1 %AND A=2 %AND A=3",
            "AND 3 = W2 K1 = W2 K2 = W2 K3",
            "COND K 3; LOAD D 2; CMP K 1; BNE A past; LOAD D 2; CMP K 2; BNE A past; LOAD D 2; \
             CMP K 3; BNE A past",
        ),
        (
            "A=1 %OR A=2 %OR A=3",
            "OR 3 = W2 K1 = W2 K2 = W2 K3",
            "COND K 3; LOAD D 2; CMP K 1; BE A part; LOAD D 2; CMP K 2; BE A part; LOAD D 2; \
             CMP K 3; BNE A past",
        ),
        (
            "((A=1 %AND A=2) %OR A=3) %AND A=4",
            "AND 2 OR 2 AND 2 = W2 K1 = W2 K2 = W2 K3 = W2 K4",
            "COND K 4; LOAD D 2; CMP K 1; BNE A 7; LOAD D 2; CMP K 2; BE A 10; LOAD D 2; CMP K 3; \
             BNE A past; LOAD D 2; CMP K 4; BNE A past",
        ),
        (
            "(A=1 %OR A=2 %OR A=3) %AND (A=4 %OR A=5)",
            "AND 2 OR 3 = W2 K1 = W2 K2 = W2 K3 OR 2 = W2 K4 = W2 K5",
            "COND K 5; LOAD D 2; CMP K 1; BE A 10; LOAD D 2; CMP K 2; BE A 10; LOAD D 2; CMP K 3; \
             BNE A past; LOAD D 2; CMP K 4; BE A part; LOAD D 2; CMP K 5; BNE A past",
        ),
        (
            "A=1 %OR ((A=2 %OR A=3) %AND A=4 %AND A=5)",
            "OR 2 = W2 K1 AND 3 OR 2 = W2 K2 = W2 K3 = W2 K4 = W2 K5",
            "COND K 5; LOAD D 2; CMP K 1; BE A part; LOAD D 2; CMP K 2; BE A 10; LOAD D 2; CMP K 3; \
             BNE A past; LOAD D 2; CMP K 4; BNE A past; LOAD D 2; CMP K 5; BNE A past",
        ),
    ] {
        let source = format!(
            "%BEGIN\n%INTEGER A\n%IF {condition} %THEN SEND(8) %ELSE SEND(9)\n%ENDOFPROGRAM\n"
        );
        let part = orders.split("; ").count();
        let end = part + 5;
        let orders = orders.replace("part", &part.to_string());
        let orders = orders.replace("past", &(part + 3).to_string());
        let parts = format!("LOAD K 8; SEND - 0; SKIP A {end}; LOAD K 9; SEND - 0; STOP - 0");
        let text = format!("BOX 1 0 {}; {orders}; {parts}\n", end + 1).replace("; ", "\n");
        assert_eq!(object(&source).as_deref(), Ok(&text[..]), "{condition}");
        let sheet = format!("SHEET 1 3\nIF {fields}\nSTART\nSEND K8\nELSE\nSEND K9\nFINISH\n");
        assert_eq!(sheet_of(&text).as_deref(), Ok(&sheet[..]), "{condition}");
    }
}

/// A part that is a jump is a part as any other; a jump to the IF leads to COND.
#[test]
fn jumps() {
    let source = "%BEGIN\n%INTEGER A\nA=1\n1:%IF A=1 %OR A=2 %THEN ->1 %ELSE ->2\n2:\n\
                  %ENDOFPROGRAM\n";
    let text = "BOX 1 0 13\nLOAD K 1\nSTR D 2\nCOND K 2\nLOAD D 2\nCMP K 1\nBE A 9\nLOAD D 2\n\
                CMP K 2\nBNE A 11\nJMP A 2\nSKIP A 12\nJMP A 12\nSTOP - 0\n";
    assert_eq!(object(source).as_deref(), Ok(text));
    let sheet =
        "SHEET 1 4\nSET 2 K1\nIF OR 2 = W2 K1 = W2 K2\nSTART\nGOTO 2\nELSE\nGOTO 5\nFINISH\n";
    assert_eq!(sheet_of(text).as_deref(), Ok(sheet));
    for (order, other) in [
        ("JMP A 2", "JMP A 3"),
        ("BE A 9", "BE A 2"),
        ("BE A 9", "BE A 12"),
        ("COND K 2", "COND K 1"),
        ("COND K 2", "COND K 3"),
        ("COND K 2", "COND K 0"),
        ("COND K 2", "COND K 17"),
    ] {
        let near = text.replacen(order, other, 1);
        assert_eq!(sheet_of(&near), Err((31, 0)), "{other}");
    }
}

/// What a condition between `%IF` and `%THEN A=1` is refused with, in statement 3.
fn refused(conditions: &[&str], number: u32) {
    for condition in conditions {
        let source = format!("%BEGIN\n%INTEGER A,B\n%IF {condition} %THEN A=1\n%ENDOFPROGRAM\n");
        assert_eq!(object(&source), Err((number, 3)), "{condition}");
    }
}

#[test]
fn no_form() {
    // "Mixing the two without brackets is refusal 7"
    refused(
        &[
            "A=1 %AND A=2 %OR A=3",
            "A=1 %OR A=2 %AND A=3",
            "A=1 %AND A=2 %AND A=3 %OR A=4",
            "(A=1 %AND A=2 %OR A=3)",
            "A=0 %OR (A=1 %OR A=2 %AND A=3)",
            "(A=1) %AND (A=2) %OR (A=3)",
            "(A=1 %AND A=2) %OR A=3 %AND A=4",
        ],
        7,
    );
    // a member or a bracket is missing, or stands in a wrong place
    refused(
        &[
            "",
            "()",
            "%AND",
            "%AND A=1",
            "%OR A=1",
            "A=1 %AND",
            "A=1 %OR",
            "A=1 %AND %OR B=1",
            "A=1 %AND ()",
            "() %OR A=1",
            "A=1 B=1",
            "(A=1)(B=1)",
            "(A=1",
            "A=1)",
            "(A=1))",
            "((A=1)",
            "(A=1 %AND) B=1",
            "A=(1 %AND B=1)",
            "(A=1 %AND B)=1",
            "(A %AND B=1)",
            "(A %AND)=1",
            "A=1 %AND (B=1",
        ],
        7,
    );
    // a condition is no operand, and an expression no condition
    refused(
        &[
            "(1=1)=1",
            "1=(2=2)",
            "-(1=1)",
            "(1=1)+1=2",
            "2=1+(1=1)",
            "(A=1)=(B=1)",
            "((A=1)+1=1)",
            "(A=1 %AND B=1)=1",
            "(A)",
            "A",
            "A=1 %AND B",
            "A %AND B=1",
            "A=1 %AND (B)",
            "(A) %AND B=1",
            "A=1=1 %AND B=1",
            "A=1 %AND B=1=1",
            "A= %AND B=1",
            "A=1 & B=1",
        ],
        7,
    );
    refused(
        &[
            "A=1 %ANDX B=1",
            "A=1 %NAND B=1",
            "A=1 %XOR B=1",
            "A=1 %A ND B=1",
        ],
        5,
    );
    refused(&["A=1 %AND X=1", "A=1 %AND (B=1 %OR A=SEND)"], 8);
}

/// Brackets that are not needed, and those of expressions.
#[test]
fn brackets() {
    for (condition, fields) in [
        ("(A=1)", "= W2 K1"),
        ("((A)=1)", "= W2 K1"),
        ("((A+B)*2)=1", "= * + W2 W3 K2 K1"),
        ("((A+B)*2=1)", "= * + W2 W3 K2 K1"),
        ("(-A)=1 %AND (-A=1)", "AND 2 = NEG W2 K1 = NEG W2 K1"),
        ("(A=1 %AND A=2) %AND A=3", "AND 3 = W2 K1 = W2 K2 = W2 K3"),
        (
            "A=1 %OR (A=2 %OR (A=3 %OR A=4))",
            "OR 4 = W2 K1 = W2 K2 = W2 K3 = W2 K4",
        ),
        (
            "((A=1) %OR ((A=2) %OR A=3))",
            "OR 3 = W2 K1 = W2 K2 = W2 K3",
        ),
        (
            "(A=1 %AND ((A=2 %OR A=3))) %AND A=4",
            "AND 3 = W2 K1 OR 2 = W2 K2 = W2 K3 = W2 K4",
        ),
    ] {
        let source = format!("%BEGIN\n%INTEGER A,B\n%IF {condition} %THEN A=1\n%ENDOFPROGRAM\n");
        let sheet = object(&source).and_then(|object| sheet_of(&object));
        let expected = format!("SHEET 2 2\nIF {fields}\nSTART\nSET 2 K1\nFINISH\n");
        assert_eq!(sheet, Ok(expected), "{condition}");
    }
}
