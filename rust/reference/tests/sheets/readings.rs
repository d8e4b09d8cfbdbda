//! Values that stand in document 01 or are worked out from it by hand.

use skimp_reference::condition::Condition;
use skimp_reference::interpret::{Ending, Meaning};
use skimp_reference::object::{Kind, Name, Order};
use skimp_reference::sheet::{Expression, Line, Operator, Relation, Sheet, Sign, Simple};
use skimp_reference::translate::{translate, without_limits, Translation};
use skimp_reference::untranslate::untranslate;

fn word(word: u32) -> Expression {
    Expression::Word(word)
}

pub fn number(number: u32) -> Expression {
    Expression::Constant(number)
}

pub fn binary(operator: Operator, left: Expression, right: Expression) -> Expression {
    Expression::Binary(operator, Box::new(left), Box::new(right))
}

pub fn unary(sign: Sign, operand: Expression) -> Expression {
    Expression::Unary(sign, Box::new(operand))
}

fn set(word: u32, value: Expression) -> Line {
    Line::Simple(Simple::Set(word, value))
}

fn send(value: Expression) -> Line {
    Line::Simple(Simple::Send(value))
}

fn goto(instruction: u32) -> Line {
    Line::Simple(Simple::Goto(instruction))
}

fn compared(relation: Relation, left: Expression, right: Expression) -> Line {
    Line::If(Condition::comparison(relation, left, right))
}

/// An IF that holds, of three orders.
fn equal_zeros() -> Line {
    compared(Relation::Equal, number(0), number(0))
}

/// An IF that fails, of three orders.
fn unequal_zeros() -> Line {
    compared(Relation::Unequal, number(0), number(0))
}

/// Document 01's worked program.
fn worked() -> Sheet {
    let difference = binary(Operator::Sub, number(2), number(5));
    let quotient = binary(Operator::Div, difference, number(2));
    Sheet {
        variables: 2,
        lines: vec![
            set(2, number(3)),
            set(3, binary(Operator::Sub, word(2), quotient)),
            compared(Relation::Greater, word(3), number(4)),
            send(word(3)),
            Line::Else,
            goto(6),
            Line::Finish,
            send(word(2)),
        ],
    }
}

/// The translation of a sheet, as a line of orders with spaces for tabs.
pub fn orders(sheet: &Sheet) -> String {
    let text = translate(sheet).expect("within the limits").text();
    text.trim_end().replace('\t', " ").replace('\n', "; ")
}

#[test]
fn worked_program() {
    let sheet = worked();
    assert_eq!(
        sheet.text().replace('\t', " "),
        "SHEET 2 6\nSET 2 K3\nSET 3 - W2 / - K2 K5 K2\nIF > W3 K4\nSTART\nSEND W3\nELSE\n\
         GOTO 6\nFINISH\nSEND W2\n"
    );
    let translation = translate(&sheet).expect("within the limits");
    let object = include_str!("../../../../examples/worked.box");
    assert_eq!(translation.text(), object);
    assert_eq!(untranslate(&translation).as_ref(), Some(&sheet));
}

/// The counts of the worked program: 2 orders, 9, then LOAD, CMP and BLE, 2 and the SKIP behind
/// them, 2, and STOP. Request L3: "the worked program now sends 5, then 3, in 20 steps."
#[test]
fn worked_meaning() {
    let sheet = worked();
    let mut meaning = Meaning::new(&sheet, 2);
    let counts: Vec<u64> = (0..7)
        .map(|_| {
            meaning.advance();
            meaning.count
        })
        .collect();
    assert_eq!(counts, [2, 11, 14, 17, 19, 20, 20]);
    assert_eq!(meaning.variables, [3, 5]);
    assert_eq!(meaning.sent, [5, 3]);
    assert_eq!(meaning.ending, Some(Ending::Stopped));
}

/// What an expression of words is worth, with the orders before STR or before its fault.
pub fn worth(value: Expression) -> (Result<i32, Ending>, u64) {
    let sheet = Sheet {
        variables: 1,
        lines: vec![set(2, value)],
    };
    let mut meaning = Meaning::new(&sheet, 0);
    meaning.advance();
    match meaning.ending {
        None => (Ok(meaning.variables[0]), meaning.count - 1),
        Some(fault) => (Err(fault), meaning.count),
    }
}

#[test]
fn readings_of_document_01() {
    use Operator::{Add, Div, Mul, Pow, Shl, Shr, Sub, Xor};
    let most = || number(2147483647);
    let minus = |value| unary(Sign::Neg, value);
    let not = |value| unary(Sign::Not, value);
    for (value, expected) in [
        (minus(binary(Div, number(7), number(2))), (Ok(-4), 3)),
        (binary(Div, minus(number(7)), number(2)), (Ok(-4), 3)),
        (binary(Add, most(), number(1)), (Ok(i32::MIN), 2)),
        (minus(not(most())), (Ok(i32::MIN), 3)),
        (binary(Pow, number(0), number(0)), (Ok(1), 2)),
        (binary(Pow, number(2), number(31)), (Ok(i32::MIN), 2)),
        (binary(Pow, number(2), number(32)), (Ok(0), 2)),
        (binary(Shr, not(number(0)), number(31)), (Ok(1), 3)),
        (
            binary(Mul, binary(Div, number(1), number(3)), number(3)),
            (Ok(0), 3),
        ),
        (binary(Xor, number(6), number(3)), (Ok(5), 2)),
        (minus(binary(Pow, number(2), number(2))), (Ok(-4), 3)),
        // the least word divided by -1; with temporaries 2, STR, 2, STR, LOAD and DIV
        (binary(Div, not(most()), not(number(0))), (Ok(i32::MIN), 8)),
        // a fault of the order itself is not counted, and one on the right ends it earlier
        (
            binary(Shl, number(1), number(32)),
            (Err(Ending::ShiftCount), 1),
        ),
        (
            binary(Div, number(1), word(2)),
            (Err(Ending::ZeroDivisor), 1),
        ),
        (
            binary(Pow, number(1), minus(number(1))),
            (Err(Ending::NegativeExponent), 6),
        ),
        (
            binary(Sub, number(9), binary(Div, number(1), number(0))),
            (Err(Ending::ZeroDivisor), 3),
        ),
    ] {
        assert_eq!(worth(value.clone()), expected, "{value:?}");
    }
}

#[test]
fn comparison_never_wraps() {
    let least = || unary(Sign::Not, number(2147483647));
    for (relation, holds) in [
        (Relation::Equal, false),
        (Relation::Unequal, true),
        (Relation::Less, false),
        (Relation::AtMost, false),
        (Relation::Greater, true),
        (Relation::AtLeast, true),
    ] {
        let sheet = Sheet {
            variables: 0,
            lines: vec![
                compared(relation, number(2147483647), least()),
                send(number(1)),
                Line::Else,
                send(number(0)),
                Line::Finish,
            ],
        };
        let mut meaning = Meaning::new(&sheet, 1);
        meaning.advance();
        assert_eq!((meaning.count, meaning.sent.len()), (8, 0));
        meaning.advance();
        // LOAD, STR, LOAD, NOT, STR, LOAD, CMP and the branch; LOAD and SEND; the first skips
        assert_eq!(meaning.sent, [i32::from(holds)], "{relation:?}");
        assert_eq!(meaning.count, 10 + u64::from(holds), "{relation:?}");
    }
}

/// A first part that ends in a jump leaves the SKIP behind it undone.
#[test]
fn a_jump_before_else() {
    let sheet = Sheet {
        variables: 0,
        lines: vec![
            equal_zeros(),
            goto(5),
            Line::Else,
            goto(4),
            Line::Finish,
            goto(4),
        ],
    };
    assert_eq!(
        orders(&sheet),
        "BOX 0 0 8; LOAD K 0; CMP K 0; BNE A 5; JMP A 7; SKIP A 6; JMP A 6; JMP A 6; STOP - 0"
    );
    let mut meaning = Meaning::new(&sheet, 0);
    meaning.advance();
    assert_eq!((meaning.count, meaning.ending), (3, None));
    meaning.advance();
    assert_eq!((meaning.count, meaning.ending), (4, None));
    meaning.advance();
    assert_eq!((meaning.count, meaning.ending), (5, Some(Ending::Stopped)));
}

#[test]
fn small_translations() {
    let no_instructions = Sheet {
        variables: 5,
        lines: Vec::new(),
    };
    assert_eq!(no_instructions.text(), "SHEET\t5\t0\n");
    assert_eq!(orders(&no_instructions), "BOX 5 0 1; STOP - 0");
    // with both operands nested, the right of the outer has one temporary in use
    let one = || unary(Sign::Neg, number(1));
    let two = || binary(Operator::Sub, number(2), one());
    let nested = Sheet {
        variables: 1,
        lines: vec![send(binary(Operator::Add, two(), two()))],
    };
    assert_eq!(
        orders(&nested),
        "BOX 1 3 20; LOAD K 2; STR D 3; LOAD K 1; NEG - 0; STR D 4; LOAD D 3; SUB D 4; STR D 3; \
         LOAD K 2; STR D 4; LOAD K 1; NEG - 0; STR D 5; LOAD D 4; SUB D 5; STR D 4; LOAD D 3; \
         ADD D 4; SEND - 0; STOP - 0"
    );
}

/// The sheet text that a translation with no variable, written as `orders` writes it, is read
/// back to.
pub fn read_back(orders: &str) -> Option<String> {
    let order = |record: &str| {
        let [name, kind, number] = record.split(' ').collect::<Vec<_>>()[..] else {
            panic!("{record}");
        };
        let kind = match kind {
            "K" => Kind::Number,
            "D" => Kind::Word,
            "A" => Kind::Address,
            _ => Kind::Nothing,
        };
        let name = match name {
            "LOAD" => Name::Load,
            "SUB" => Name::Sub,
            "CMP" => Name::Cmp,
            "COND" => Name::Cond,
            "BE" => Name::Be,
            "BNE" => Name::Bne,
            "BLT" => Name::Blt,
            "BLE" => Name::Ble,
            "BGT" => Name::Bgt,
            "BGE" => Name::Bge,
            "STR" => Name::Str,
            "JMP" => Name::Jmp,
            "SKIP" => Name::Skip,
            "NEG" => Name::Neg,
            "SEND" => Name::Send,
            "STOP" => Name::Stop,
            _ => panic!("{record}"),
        };
        let number = number.parse().expect("a number");
        Order { name, kind, number }
    };
    let translation = Translation {
        variables: 0,
        temporaries: if orders.contains("STR D") { 2 } else { 0 },
        orders: orders.split("; ").map(order).collect(),
    };
    let text = untranslate(&translation)?.text();
    Some(text.trim_end().replace('\t', " ").replace('\n', "; "))
}

/// "Taking a JMP after an IF for its ELSE wherever the branch leads" is a slip. Only a SKIP is the
/// jump over an ELSE, and only where the branch leads right past it.
#[test]
fn a_jump_after_if() {
    let sheet = |orders| read_back(orders).unwrap_or_default();
    // the branch leads to the JMP
    assert_eq!(
        sheet("LOAD K 0; CMP K 0; BNE A 5; LOAD K 1; SEND - 0; JMP A 7; JMP A 0; STOP - 0"),
        "SHEET 0 4; IF = K0 K0; START; SEND K1; FINISH; GOTO 5; GOTO 1"
    );
    // it leads past the JMP, which is the last instruction of the part, wherever that leads
    assert_eq!(
        sheet("LOAD K 0; CMP K 0; BNE A 6; LOAD K 1; SEND - 0; JMP A 7; JMP A 0; STOP - 0"),
        "SHEET 0 4; IF = K0 K0; START; SEND K1; GOTO 5; FINISH; GOTO 1"
    );
    // it leads past the SKIP, which leads over the order after it
    assert_eq!(
        sheet("LOAD K 0; CMP K 0; BNE A 6; LOAD K 1; SEND - 0; SKIP A 7; JMP A 0; STOP - 0"),
        "SHEET 0 3; IF = K0 K0; START; SEND K1; ELSE; GOTO 1; FINISH"
    );
    for orders in [
        // it leads past the SKIP, which leads elsewhere: to nothing, back, or into an instruction
        "LOAD K 0; CMP K 0; BNE A 6; LOAD K 1; SEND - 0; SKIP A 6; JMP A 0; STOP - 0",
        "LOAD K 0; CMP K 0; BNE A 6; LOAD K 1; SEND - 0; SKIP A 0; JMP A 0; STOP - 0",
        "LOAD K 0; CMP K 0; BNE A 6; LOAD K 1; SEND - 0; SKIP A 7; LOAD K 1; SEND - 0; STOP - 0",
        // it leads to the SKIP, past what follows it, or into an instruction
        "LOAD K 0; CMP K 0; BNE A 5; LOAD K 1; SEND - 0; SKIP A 7; JMP A 0; STOP - 0",
        "LOAD K 0; CMP K 0; BNE A 7; LOAD K 1; SEND - 0; SKIP A 7; JMP A 0; STOP - 0",
        "LOAD K 0; CMP K 0; BNE A 4; LOAD K 1; SEND - 0; JMP A 7; JMP A 0; STOP - 0",
        // the first part or the second has no instruction, or the only one
        "LOAD K 0; CMP K 0; BNE A 4; SKIP A 5; JMP A 0; STOP - 0",
        "LOAD K 0; CMP K 0; BNE A 6; LOAD K 1; SEND - 0; SKIP A 6; STOP - 0",
        "LOAD K 0; CMP K 0; BNE A 3; STOP - 0",
        "LOAD K 0; CMP K 0; BNE A 0; JMP A 0; STOP - 0",
        // a JMP leads to the SKIP; a SKIP stands alone
        "LOAD K 0; CMP K 0; BNE A 5; JMP A 4; SKIP A 6; JMP A 0; STOP - 0",
        "SKIP A 1; STOP - 0",
        "SKIP A 0; STOP - 0",
    ] {
        assert_eq!(read_back(orders), None, "{orders}");
    }
}

/// Parts in parts: branches and SKIPs lead to the order right after their part, be it a SKIP.
#[test]
fn nested_parts() {
    let sheet = Sheet {
        variables: 0,
        lines: vec![
            equal_zeros(),
            equal_zeros(),
            unequal_zeros(),
            send(number(1)),
            Line::Finish,
            Line::Else,
            send(number(2)),
            Line::Finish,
            Line::Else,
            goto(8),
            Line::Finish,
            send(number(3)),
            goto(1),
        ],
    };
    let text = "SHEET 0 8; IF = K0 K0; START; IF = K0 K0; START; IF # K0 K0; START; SEND K1; \
                FINISH; ELSE; SEND K2; FINISH; ELSE; GOTO 8; FINISH; SEND K3; GOTO 1";
    let expected = "LOAD K 0; CMP K 0; BNE A 15; LOAD K 0; CMP K 0; BNE A 12; LOAD K 0; CMP K 0; \
                    BE A 11; LOAD K 1; SEND - 0; SKIP A 14; LOAD K 2; SEND - 0; SKIP A 16; \
                    JMP A 18; LOAD K 3; SEND - 0; JMP A 0; STOP - 0";
    assert_eq!(orders(&sheet), format!("BOX 0 0 20; {expected}"));
    assert_eq!(read_back(expected).as_deref(), Some(text));
    for (order, other) in [
        // led on from SKIP to SKIP, or past one
        ("BE A 11", "BE A 14"),
        ("BE A 11", "BE A 16"),
        ("SKIP A 14", "SKIP A 16"),
        ("SKIP A 14", "SKIP A 15"),
        // parts that are not in each other
        ("BNE A 12", "BNE A 16"),
        ("BE A 11", "BE A 12"),
        ("SKIP A 16", "SKIP A 20"),
        // a jump to a SKIP
        ("JMP A 18", "JMP A 14"),
        // JMP for SKIP, and SKIP for JMP
        ("SKIP A 14", "JMP A 14"),
        ("JMP A 18", "SKIP A 18"),
        ("JMP A 0", "SKIP A 0"),
    ] {
        let orders = expected.replacen(order, other, 1);
        assert_eq!(read_back(&orders), None, "{orders}");
    }
    // a JMP for the outer SKIP is an instruction, so that there is no second part
    let orders = expected.replacen("SKIP A 16", "JMP A 16", 1);
    assert_eq!(
        read_back(&orders).unwrap_or_default(),
        "SHEET 0 9; IF = K0 K0; START; IF = K0 K0; START; IF # K0 K0; START; SEND K1; FINISH; \
         ELSE; SEND K2; FINISH; GOTO 8; FINISH; GOTO 9; SEND K3; GOTO 1"
    );
    // the counts: two answers, and one that fails, with both SKIPs on its way
    let mut meaning = Meaning::new(&sheet, 9);
    let counts: Vec<u64> = (0..5)
        .map(|_| {
            meaning.advance();
            meaning.count
        })
        .collect();
    assert_eq!(counts, [3, 6, 11, 13, 14]);
    assert_eq!(meaning.sent, [3]);
}

/// "Sheets keep this limit": sixteen IFs may stand in each other.
#[test]
fn most_levels() {
    for (levels, is_sheet) in [(15, true), (16, true), (17, false)] {
        for has_else in [false, true] {
            let mut lines: Vec<_> = (0..levels).map(|_| equal_zeros()).collect();
            lines.push(goto(1));
            for _ in 0..levels {
                if has_else {
                    lines.extend([Line::Else, goto(1)]);
                }
                lines.push(Line::Finish);
            }
            let sheet = Sheet {
                variables: 0,
                lines,
            };
            assert_eq!(translate(&sheet).is_some(), is_sheet, "{levels}");
            let back = untranslate(&without_limits(&sheet));
            assert_eq!(back, is_sheet.then_some(sheet), "{levels}");
        }
    }
}

/// Orders that work out the same as a translation, but are none.
#[test]
fn not_the_house_form() {
    let good =
        "LOAD K 1; STR D 2; LOAD K 2; SUB K 3; STR D 3; LOAD D 2; SUB D 3; SEND - 0; STOP - 0";
    let expected = "SHEET 0 1; SEND - K1 - K2 K3";
    assert_eq!(read_back(good).as_deref(), Some(expected));
    for orders in [
        // a plain right operand by way of a temporary
        "LOAD K 1; STR D 2; LOAD K 2; STR D 3; LOAD D 2; SUB D 3; SEND - 0; STOP - 0",
        // the temporaries the other way round
        "LOAD K 1; STR D 3; LOAD K 2; SUB K 3; STR D 2; LOAD D 3; SUB D 2; SEND - 0; STOP - 0",
        // one that is not needed
        "LOAD K 1; STR D 2; LOAD D 2; SEND - 0; STOP - 0",
        // a value that is dropped, and one that is not there
        "LOAD K 1; LOAD K 1; SEND - 0; LOAD K 1; STR D 2; JMP A 6; STOP - 0",
        "LOAD K 1; STR D 2; SEND - 0; STOP - 0",
        // words before the first and constants past the last
        "LOAD D 1; SEND - 0; STOP - 0",
        "LOAD K 2147483648; SEND - 0; STOP - 0",
        // no order after STOP, and none without it
        "STOP - 0; STOP - 0",
        "LOAD K 1; SEND - 0",
    ] {
        assert_eq!(read_back(orders), None, "{orders}");
    }
}
