//! From the cells of a statement to its tokens.

use super::cells::KEYWORD;
use super::{CONSTANT_INVALID, UNKNOWN_KEYWORD};
use crate::condition::Joining;
use crate::limits::MOST_NUMBER;
use crate::sheet::{Operator, Relation};

#[derive(Clone, Copy, Debug, PartialEq, Eq)]
pub enum Token {
    Begin,
    EndOfProgram,
    Integer,
    If,
    Then,
    Else,
    Start,
    Finish,
    Joining(Joining),
    Name(Name),
    Decimal(u32),
    Quoted(u32),
    /// `-` is also a sign, and so is `+`.
    Operator(Operator),
    /// `=` is also that of an assignment.
    Relation(Relation),
    Not,
    Arrow,
    Open,
    Close,
    Comma,
    Colon,
    /// A byte that is no token of the language, so that no form has it.
    Stray,
}

/// A name, by the places of its first cell and of the one after its last.
#[derive(Clone, Copy, Debug, PartialEq, Eq)]
pub struct Name {
    first: u16,
    end: u16,
}

impl Name {
    /// The letters and digits of the name, in the cells of its statement.
    pub fn letters(self, cells: &[u8]) -> &[u8] {
        &cells[usize::from(self.first)..usize::from(self.end)]
    }
}

/// None begins another, so the one that stands is the longest.
const KEYWORDS: [(&[u8], Token); 10] = [
    (b"BEGIN", Token::Begin),
    (b"ENDOFPROGRAM", Token::EndOfProgram),
    (b"INTEGER", Token::Integer),
    (b"IF", Token::If),
    (b"THEN", Token::Then),
    (b"ELSE", Token::Else),
    (b"START", Token::Start),
    (b"FINISH", Token::Finish),
    (b"AND", Token::Joining(Joining::And)),
    (b"OR", Token::Joining(Joining::Or)),
];

/// The most characters of a quoted constant.
const MOST_CHARACTERS: usize = 4;

/// Puts the tokens from left to right in place of those that are there, or gives the number of the
/// first refusal from the left.
pub fn cut(cells: &[u8], tokens: &mut Vec<Token>) -> Result<(), u32> {
    tokens.clear();
    let mut place = 0;
    while let Some(&first) = cells.get(place) {
        let rest = &cells[place..];
        let (token, length) = match first {
            KEYWORD.. => keyword(rest)?,
            b'A'..=b'Z' => name(rest, place),
            b'0'..=b'9' => decimal(rest)?,
            b'\'' => quoted(rest)?,
            _ => symbol(first, rest.get(1)),
        };
        tokens.push(token);
        place += length;
    }
    Ok(())
}

/// "A run of keyword letters is cut from the left, always taking the longest."
fn keyword(cells: &[u8]) -> Result<(Token, usize), u32> {
    for (letters, token) in KEYWORDS {
        let stands = |(letter, cell): (&u8, &u8)| letter | KEYWORD == *cell;
        if cells.len() >= letters.len() && letters.iter().zip(cells).all(stands) {
            return Ok((token, letters.len()));
        }
    }
    Err(UNKNOWN_KEYWORD)
}

/// "A name is a letter and the letters and digits after it." Keyword letters are none of them.
fn name(cells: &[u8], first: usize) -> (Token, usize) {
    let is_in_name = |cell: &&u8| cell.is_ascii_uppercase() || cell.is_ascii_digit();
    let length = cells.iter().take_while(is_in_name).count();
    let name = Name {
        first: first as u16,
        end: (first + length) as u16,
    };
    (Token::Name(name), length)
}

/// "A decimal constant is 0 to 2147483647."
fn decimal(cells: &[u8]) -> Result<(Token, usize), u32> {
    let mut value = 0_u64;
    let mut length = 0;
    while let Some(digit @ b'0'..=b'9') = cells.get(length) {
        value = value * 10 + u64::from(digit - b'0');
        if value > u64::from(MOST_NUMBER) {
            return Err(CONSTANT_INVALID);
        }
        length += 1;
    }
    Ok((Token::Decimal(value as u32), length))
}

/// "A quoted constant has one to four characters, a doubled quote being one, packed eight bits each,
/// the last lowest."
fn quoted(cells: &[u8]) -> Result<(Token, usize), u32> {
    let (mut value, mut characters) = (0, 0);
    let mut place = 1;
    loop {
        let character = cells[place];
        place += 1;
        if character == b'\'' {
            // a statement ends outside quotes, so one that is not doubled is the last
            if cells.get(place) != Some(&b'\'') {
                break;
            }
            place += 1;
        }
        value = value << 8 | u32::from(character);
        characters += 1;
    }
    match characters {
        1..=MOST_CHARACTERS => Ok((Token::Quoted(value), place)),
        _ => Err(CONSTANT_INVALID),
    }
}

/// Those of two characters "are taken whenever both characters are there".
fn symbol(first: u8, second: Option<&u8>) -> (Token, usize) {
    match (first, second) {
        (b'*', Some(b'*')) => (Token::Operator(Operator::Pow), 2),
        (b'<', Some(b'<')) => (Token::Operator(Operator::Shl), 2),
        (b'>', Some(b'>')) => (Token::Operator(Operator::Shr), 2),
        (b'!', Some(b'!')) => (Token::Operator(Operator::Xor), 2),
        (b'-', Some(b'>')) => (Token::Arrow, 2),
        (b'<', Some(b'=')) => (Token::Relation(Relation::AtMost), 2),
        (b'>', Some(b'=')) => (Token::Relation(Relation::AtLeast), 2),
        (b'+', _) => (Token::Operator(Operator::Add), 1),
        (b'-', _) => (Token::Operator(Operator::Sub), 1),
        (b'*', _) => (Token::Operator(Operator::Mul), 1),
        (b'/', _) => (Token::Operator(Operator::Div), 1),
        (b'&', _) => (Token::Operator(Operator::And), 1),
        (b'!', _) => (Token::Operator(Operator::Or), 1),
        (b'\\', _) => (Token::Not, 1),
        (b'=', _) => (Token::Relation(Relation::Equal), 1),
        (b'#', _) => (Token::Relation(Relation::Unequal), 1),
        (b'<', _) => (Token::Relation(Relation::Less), 1),
        (b'>', _) => (Token::Relation(Relation::Greater), 1),
        (b'(', _) => (Token::Open, 1),
        (b')', _) => (Token::Close, 1),
        (b',', _) => (Token::Comma, 1),
        (b':', _) => (Token::Colon, 1),
        _ => (Token::Stray, 1),
    }
}
