//! Orders and object text.

use crate::limits::{MOST_NUMBER, MOST_ORDERS, MOST_TEMPORARIES, MOST_VARIABLES};
use crate::text::put_number;
use crate::Refusal;

/// Words 0 and 1 of the frame are the link words, which no order may name.
pub const LINK_WORDS: u32 = 2;

/// The most bytes of a header with its newline: three letters, and three numbers of ten digits, each
/// behind a tab.
const MOST_HEADER: usize = 37;
/// The most bytes of a record with its newline: four letters, a kind, ten digits and two tabs.
const MOST_RECORD: usize = 18;
/// No object's text is longer.
pub const MOST_TEXT: usize = MOST_HEADER + MOST_RECORD * MOST_ORDERS;

/// As many orders as there may be, or more: a power of two.
pub const PADDED: usize = MOST_ORDERS.next_power_of_two();

const BAD_HEADER: u32 = 21;
const BAD_LINE: u32 = 22;
const BAD_WORD: u32 = 23;
const BAD_ADDRESS: u32 = 24;
const BAD_STOP: u32 = 25;

#[derive(Clone, Copy, Debug, PartialEq, Eq)]
#[rustfmt::skip]
pub enum Name {
    Load, Add, Sub, Mlt, Div, Exp, Shl, Shr, And, Or, Xor, Cmp,
    Cond,
    Str,
    Jmp, Skip, Be, Bne, Blt, Ble, Bgt, Bge,
    Neg, Not, Send, Stop,
}

/// What an order's number is.
#[derive(Clone, Copy, Debug, PartialEq, Eq)]
pub enum Kind {
    Word,
    Number,
    Address,
    Nothing,
}

#[derive(Clone, Copy, Debug, PartialEq, Eq)]
pub struct Order {
    pub name: Name,
    pub kind: Kind,
    pub number: u32,
}

pub const STOP: Order = Order {
    name: Name::Stop,
    kind: Kind::Nothing,
    number: 0,
};

/// The names as records have them, in the order of `Name`.
#[rustfmt::skip]
const NAMES: [&str; 26] = [
    "LOAD", "ADD", "SUB", "MLT", "DIV", "EXP", "SHL", "SHR", "AND", "OR", "XOR", "CMP",
    "COND",
    "STR",
    "JMP", "SKIP", "BE", "BNE", "BLT", "BLE", "BGT", "BGE",
    "NEG", "NOT", "SEND", "STOP",
];

impl Order {
    /// Puts the order's record and its newline behind a text.
    fn write(self, text: &mut Vec<u8>) {
        text.extend_from_slice(NAMES[self.name as usize].as_bytes());
        text.extend_from_slice(match self.kind {
            Kind::Word => b"\tD\t",
            Kind::Number => b"\tK\t",
            Kind::Address => b"\tA\t",
            Kind::Nothing => b"\t-\t",
        });
        put_number(text, self.number);
        text.push(b'\n');
    }
}

/// The text of an object.
pub fn text(variables: u32, temporaries: u32, orders: &[Order]) -> Vec<u8> {
    let mut text = Vec::with_capacity(MOST_HEADER + MOST_RECORD * orders.len());
    text.extend_from_slice(b"BOX\t");
    put_number(&mut text, variables);
    text.push(b'\t');
    put_number(&mut text, temporaries);
    text.push(b'\t');
    put_number(&mut text, orders.len() as u32);
    text.push(b'\n');
    for order in orders {
        order.write(&mut text);
    }
    text
}

/// A good object.
pub struct Object {
    pub variables: u32,
    pub temporaries: u32,
    pub orders: Vec<Order>,
}

impl Object {
    /// The object that a text states, or the refusal that document 01 fixes.
    pub fn read(text: &[u8]) -> Result<Object, Refusal> {
        let (header, mut rest) = line(text).ok_or(refusal(BAD_HEADER, 0))?;
        let sizes = sizes(header).ok_or(refusal(BAD_HEADER, 0))?;
        let (variables, temporaries, length) = sizes;
        let mut orders = Vec::with_capacity(length);
        for place in 0..length {
            let (record, after) = line(rest).ok_or(refusal(BAD_LINE, place))?;
            orders.push(order(record).ok_or(refusal(BAD_LINE, place))?);
            rest = after;
        }
        if !rest.is_empty() {
            return Err(refusal(BAD_LINE, length));
        }
        check_operands(&orders, LINK_WORDS + variables + temporaries)?;
        check_stop(&orders)?;
        Ok(Object {
            variables,
            temporaries,
            orders,
        })
    }

    /// The orders, then STOP up to the array's end. Its length lets an index be masked, which costs
    /// less than a test of bounds.
    pub fn padded(&self) -> [Order; PADDED] {
        let mut padded = [STOP; PADDED];
        padded[..self.orders.len()].copy_from_slice(&self.orders);
        padded
    }

    /// How many words the frame has, link words included.
    pub fn words(&self) -> usize {
        (LINK_WORDS + self.variables + self.temporaries) as usize
    }
}

fn refusal(number: u32, place: usize) -> Refusal {
    Refusal {
        number,
        place: place as u32,
    }
}

/// The text before the first newline, and the text after it.
fn line(text: &[u8]) -> Option<(&[u8], &[u8])> {
    let end = text.iter().position(|&byte| byte == b'\n')?;
    Some((&text[..end], &text[end + 1..]))
}

/// The fields of a line that has exactly `COUNT` of them.
fn fields<const COUNT: usize>(line: &[u8]) -> Option<[&[u8]; COUNT]> {
    let mut parts = line.split(|&byte| byte == b'\t');
    let mut fields = [&line[..0]; COUNT];
    for field in &mut fields {
        *field = parts.next()?;
    }
    parts.next().is_none().then_some(fields)
}

/// A decimal number from 0 to `most` without a needless zero.
fn number(field: &[u8], most: u32) -> Option<u32> {
    let needless_zero = field.len() > 1 && field[0] == b'0';
    if field.is_empty() || field.len() > 10 || needless_zero {
        return None;
    }
    let mut value = 0_u64;
    for &byte in field {
        if !byte.is_ascii_digit() {
            return None;
        }
        value = value * 10 + u64::from(byte - b'0');
    }
    u32::try_from(value).ok().filter(|&value| value <= most)
}

/// The numbers of variables, temporaries and orders, of the header.
fn sizes(header: &[u8]) -> Option<(u32, u32, usize)> {
    let [mark, variables, temporaries, orders] = fields(header)?;
    if mark != b"BOX" {
        return None;
    }
    let variables = number(variables, MOST_VARIABLES)?;
    let temporaries = number(temporaries, MOST_TEMPORARIES)?;
    let length = number(orders, MOST_ORDERS as u32)?;
    (length > 0).then_some((variables, temporaries, length as usize))
}

/// The order of a good record.
fn order(record: &[u8]) -> Option<Order> {
    let [name, kind, operand] = fields(record)?;
    let number = number(operand, MOST_NUMBER)?;
    let (name, kind) = match kind {
        b"D" if name == b"STR" => (Name::Str, Kind::Word),
        b"D" => (with_value(name)?, Kind::Word),
        b"K" if name == b"COND" => (Name::Cond, Kind::Number),
        b"K" => (with_value(name)?, Kind::Number),
        b"A" => (with_address(name)?, Kind::Address),
        b"-" if number == 0 => (with_nothing(name)?, Kind::Nothing),
        _ => return None,
    };
    Some(Order { name, kind, number })
}

/// The orders that take a word or a number.
fn with_value(name: &[u8]) -> Option<Name> {
    Some(match name {
        b"LOAD" => Name::Load,
        b"ADD" => Name::Add,
        b"SUB" => Name::Sub,
        b"MLT" => Name::Mlt,
        b"DIV" => Name::Div,
        b"EXP" => Name::Exp,
        b"SHL" => Name::Shl,
        b"SHR" => Name::Shr,
        b"AND" => Name::And,
        b"OR" => Name::Or,
        b"XOR" => Name::Xor,
        b"CMP" => Name::Cmp,
        _ => return None,
    })
}

fn with_address(name: &[u8]) -> Option<Name> {
    Some(match name {
        b"JMP" => Name::Jmp,
        b"SKIP" => Name::Skip,
        b"BE" => Name::Be,
        b"BNE" => Name::Bne,
        b"BLT" => Name::Blt,
        b"BLE" => Name::Ble,
        b"BGT" => Name::Bgt,
        b"BGE" => Name::Bge,
        _ => return None,
    })
}

fn with_nothing(name: &[u8]) -> Option<Name> {
    Some(match name {
        b"NEG" => Name::Neg,
        b"NOT" => Name::Not,
        b"SEND" => Name::Send,
        b"STOP" => Name::Stop,
        _ => return None,
    })
}

/// The first order with a word or an address out of range is refused.
fn check_operands(orders: &[Order], words: u32) -> Result<(), Refusal> {
    for (place, order) in orders.iter().enumerate() {
        match order.kind {
            Kind::Word if !(LINK_WORDS..words).contains(&order.number) => {
                return Err(refusal(BAD_WORD, place));
            }
            Kind::Address if order.number as usize >= orders.len() => {
                return Err(refusal(BAD_ADDRESS, place));
            }
            _ => {}
        }
    }
    Ok(())
}

/// The first STOP must be the last order.
fn check_stop(orders: &[Order]) -> Result<(), Refusal> {
    let last = orders.len() - 1;
    match orders.iter().position(|order| order.name == Name::Stop) {
        Some(place) if place == last => Ok(()),
        Some(place) => Err(refusal(BAD_STOP, place)),
        None => Err(refusal(BAD_STOP, last)),
    }
}
