//! Objects and sheets of joined conditions, worked out by hand. The first are the examples of the
//! report's Chapter 8.

use skimp_reference::condition::{Condition, Joining};
use skimp_reference::interpret::Meaning;
use skimp_reference::sheet::{Expression, Line, Relation, Sheet, Sign};

use super::{goto, send, sheet};
use crate::readings::{number, orders, read_back, unary};

/// The comparison of a number with 0.
fn equal(left: u32) -> Condition {
    compared(Relation::Equal, left)
}

fn compared(relation: Relation, left: u32) -> Condition {
    Condition::comparison(relation, number(left), number(0))
}

fn and<const COUNT: usize>(members: [Condition; COUNT]) -> Condition {
    Condition::Run(Joining::And, members.into())
}

fn or<const COUNT: usize>(members: [Condition; COUNT]) -> Condition {
    Condition::Run(Joining::Or, members.into())
}

/// An IF that sends 8 or 9.
fn sends(condition: Condition) -> Sheet {
    let lines = vec![
        Line::If(condition),
        send(8),
        Line::Else,
        send(9),
        Line::Finish,
    ];
    sheet(0, lines)
}

/// Holds a sheet to its line IF and to the orders before its parts, which follow those.
fn check(condition: Condition, fields: &str, expected: &str) {
    let count = expected.split("; ").count();
    let (past, end) = (count + 3, count + 5);
    let parts = format!("LOAD K 8; SEND - 0; SKIP A {end}; LOAD K 9; SEND - 0; STOP - 0");
    let expected = format!("{expected}; {parts}").replace("past", &past.to_string());
    let expected = expected.replace("part", &count.to_string());
    let sheet = sends(condition);
    assert_eq!(orders(&sheet), format!("BOX 0 0 {}; {expected}", end + 1));
    let text = format!("SHEET 0 3; IF {fields}; START; SEND K8; ELSE; SEND K9; FINISH");
    let shown = sheet
        .text()
        .trim_end()
        .replace('\t', " ")
        .replace('\n', "; ");
    assert_eq!(shown, text);
    assert_eq!(read_back(&expected), Some(text));
}

#[test]
fn examples_of_the_report() {
    // sc1 %AND (sc2 %OR sc3)
    check(
        and([equal(1), or([equal(2), equal(3)])]),
        "AND 2 = K1 K0 OR 2 = K2 K0 = K3 K0",
        "COND K 3; LOAD K 1; CMP K 0; BNE A past; LOAD K 2; CMP K 0; BE A part; LOAD K 3; CMP K 0; \
         BNE A past",
    );
    // sc1 %AND sc2 %AND sc3
    check(
        and([equal(1), equal(2), equal(3)]),
        "AND 3 = K1 K0 = K2 K0 = K3 K0",
        "COND K 3; LOAD K 1; CMP K 0; BNE A past; LOAD K 2; CMP K 0; BNE A past; LOAD K 3; CMP K 0; \
         BNE A past",
    );
    // sc1 %OR sc2 %OR sc3
    check(
        or([equal(1), equal(2), equal(3)]),
        "OR 3 = K1 K0 = K2 K0 = K3 K0",
        "COND K 3; LOAD K 1; CMP K 0; BE A part; LOAD K 2; CMP K 0; BE A part; LOAD K 3; CMP K 0; \
         BNE A past",
    );
    // ((sc1 %AND sc2) %OR sc3) %AND sc4
    check(
        and([or([and([equal(1), equal(2)]), equal(3)]), equal(4)]),
        "AND 2 OR 2 AND 2 = K1 K0 = K2 K0 = K3 K0 = K4 K0",
        "COND K 4; LOAD K 1; CMP K 0; BNE A 7; LOAD K 2; CMP K 0; BE A 10; LOAD K 3; CMP K 0; \
         BNE A past; LOAD K 4; CMP K 0; BNE A past",
    );
    // (sc1 %OR sc2 %OR sc3) %AND (sc4 %OR sc5)
    check(
        and([or([equal(1), equal(2), equal(3)]), or([equal(4), equal(5)])]),
        "AND 2 OR 3 = K1 K0 = K2 K0 = K3 K0 OR 2 = K4 K0 = K5 K0",
        "COND K 5; LOAD K 1; CMP K 0; BE A 10; LOAD K 2; CMP K 0; BE A 10; LOAD K 3; CMP K 0; \
         BNE A past; LOAD K 4; CMP K 0; BE A part; LOAD K 5; CMP K 0; BNE A past",
    );
    // sc1 %OR ((sc2 %OR sc3) %AND sc4 %AND sc5)
    check(
        or([
            equal(1),
            and([or([equal(2), equal(3)]), equal(4), equal(5)]),
        ]),
        "OR 2 = K1 K0 AND 3 OR 2 = K2 K0 = K3 K0 = K4 K0 = K5 K0",
        "COND K 5; LOAD K 1; CMP K 0; BE A part; LOAD K 2; CMP K 0; BE A 10; LOAD K 3; CMP K 0; \
         BNE A past; LOAD K 4; CMP K 0; BNE A past; LOAD K 5; CMP K 0; BNE A past",
    );
}

/// Before AND and last "the branch of the opposite relation", before OR that of the relation.
#[test]
fn every_relation() {
    for (relation, sign, same, opposite) in [
        (Relation::Equal, "=", "BE", "BNE"),
        (Relation::Unequal, "#", "BNE", "BE"),
        (Relation::Less, "<", "BLT", "BGE"),
        (Relation::AtMost, "<=", "BLE", "BGT"),
        (Relation::Greater, ">", "BGT", "BLE"),
        (Relation::AtLeast, ">=", "BGE", "BLT"),
    ] {
        let [one, two] = [1, 2].map(|left| compared(relation, left));
        check(
            and([one.clone(), two.clone()]),
            &format!("AND 2 {sign} K1 K0 {sign} K2 K0"),
            &format!(
                "COND K 2; LOAD K 1; CMP K 0; {opposite} A past; LOAD K 2; CMP K 0; \
                 {opposite} A past"
            ),
        );
        check(
            or([one.clone(), two]),
            &format!("OR 2 {sign} K1 K0 {sign} K2 K0"),
            &format!(
                "COND K 2; LOAD K 1; CMP K 0; {same} A part; LOAD K 2; CMP K 0; {opposite} A past"
            ),
        );
        // alone, without COND
        check(
            one,
            &format!("{sign} K1 K0"),
            &format!("LOAD K 1; CMP K 0; {opposite} A past"),
        );
    }
}

/// A part that is a jump is a part as any other: no branch leads on to where the jump leads.
#[test]
fn jumps_as_parts() {
    let condition = or([equal(1), equal(2), equal(3)]);
    let lines = vec![
        Line::If(condition),
        goto(4),
        Line::Else,
        goto(1),
        Line::Finish,
    ];
    let expected = "COND K 3; LOAD K 1; CMP K 0; BE A 10; LOAD K 2; CMP K 0; BE A 10; LOAD K 3; \
                    CMP K 0; BNE A 12; JMP A 13; SKIP A 13; JMP A 0; STOP - 0";
    assert_eq!(orders(&sheet(0, lines)), format!("BOX 0 0 14; {expected}"));
    let text = "SHEET 0 3; IF OR 3 = K1 K0 = K2 K0 = K3 K0; START; GOTO 4; ELSE; GOTO 1; FINISH";
    assert_eq!(read_back(expected).as_deref(), Some(text));
    // led on, they are no translation
    for (order, other) in [
        ("BE A 10; LOAD K 2", "BE A 13; LOAD K 2"),
        ("BE A 10; LOAD K 3", "BE A 13; LOAD K 3"),
        ("BNE A 12", "BNE A 0"),
        ("BNE A 12", "BE A 13"),
    ] {
        let orders = expected.replacen(order, other, 1);
        assert_ne!(orders, expected);
        assert_eq!(read_back(&orders), None, "{orders}");
    }
}

/// Each comparison starts with no temporary in use.
#[test]
fn temporaries() {
    let minus = |value| unary(Sign::Neg, number(value));
    let nested = |left| Condition::comparison(Relation::Less, number(left), minus(5));
    let lines = vec![Line::If(and([nested(1), nested(2)])), send(8), Line::Finish];
    let expected = "COND K 2; LOAD K 1; STR D 2; LOAD K 5; NEG - 0; STR D 3; LOAD D 2; CMP D 3; \
                    BGE A 19; LOAD K 2; STR D 2; LOAD K 5; NEG - 0; STR D 3; LOAD D 2; CMP D 3; \
                    BGE A 19; LOAD K 8; SEND - 0; STOP - 0";
    assert_eq!(orders(&sheet(0, lines)), format!("BOX 0 2 20; {expected}"));
    let text = "SHEET 0 2; IF AND 2 < K1 NEG K5 < K2 NEG K5; START; SEND K8; FINISH";
    assert_eq!(read_back(expected).as_deref(), Some(text));
}

/// Joined conditions in the parts of others, and jumps to them: these lead to COND.
#[test]
fn nested_conditions() {
    let inner = or([equal(3), equal(4)]);
    let lines = vec![
        Line::If(and([equal(1), equal(2)])),
        Line::If(inner),
        goto(2),
        Line::Else,
        goto(1),
        Line::Finish,
        Line::Finish,
        Line::If(or([equal(5), equal(6)])),
        goto(5),
        Line::Finish,
    ];
    let expected = "COND K 2; LOAD K 1; CMP K 0; BNE A 17; LOAD K 2; CMP K 0; BNE A 17; COND K 2; \
                    LOAD K 3; CMP K 0; BE A 14; LOAD K 4; CMP K 0; BNE A 16; JMP A 7; SKIP A 17; \
                    JMP A 0; COND K 2; LOAD K 5; CMP K 0; BE A 24; LOAD K 6; CMP K 0; BNE A 25; \
                    JMP A 17; STOP - 0";
    let sheet = sheet(0, lines);
    assert_eq!(orders(&sheet), format!("BOX 0 0 26; {expected}"));
    let text =
        "SHEET 0 6; IF AND 2 = K1 K0 = K2 K0; START; IF OR 2 = K3 K0 = K4 K0; START; GOTO 2; \
                ELSE; GOTO 1; FINISH; FINISH; IF OR 2 = K5 K0 = K6 K0; START; GOTO 5; FINISH";
    assert_eq!(read_back(expected).as_deref(), Some(text));
    // a jump behind a COND leads to no instruction
    for (order, other) in [
        ("JMP A 7", "JMP A 8"),
        ("JMP A 0", "JMP A 1"),
        ("JMP A 17", "JMP A 18"),
    ] {
        let orders = expected.replacen(order, other, 1);
        assert_eq!(read_back(&orders), None, "{orders}");
    }
    // 1 = 0 fails: COND and one comparison; then COND, and both of the last IF; STOP
    let mut meaning = Meaning::new(&sheet, 0);
    let counts: Vec<u64> = (0..3)
        .map(|_| {
            meaning.advance();
            meaning.count
        })
        .collect();
    assert_eq!(counts, [4, 11, 12]);
}

/// A comparison that is never tried does not fault, and the meaning does not count it.
#[test]
fn not_tried() {
    let zero = || Expression::Constant(0);
    let shift = Expression::Binary(
        skimp_reference::sheet::Operator::Shl,
        Box::new(number(1)),
        Box::new(number(32)),
    );
    let faults = Condition::comparison(Relation::Equal, shift, zero());
    for (condition, sent, count) in [
        (and([equal(1), faults.clone()]), 9, 4),
        (or([equal(0), faults.clone()]), 8, 4),
        (
            and([or([equal(1), equal(0)]), equal(1), faults.clone()]),
            9,
            10,
        ),
        (or([and([equal(1), faults]), equal(0)]), 8, 7),
    ] {
        let sheet = sends(condition);
        let mut meaning = Meaning::new(&sheet, 1);
        meaning.advance();
        assert_eq!((meaning.count, meaning.ending), (count, None));
        meaning.advance();
        assert_eq!(meaning.sent, [sent]);
    }
}
