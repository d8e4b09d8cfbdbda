//! Sets of names that are alike, and the statements that declare and use them.

use std::collections::BTreeSet;

use skimp_reference::random::Random;
use skimp_reference::writing::spelling::length;
use skimp_reference::writing::token::Token;

use super::{MOST_CELLS, MOST_DECLARED};

/// The letters come before the digits, so that the first 26 may begin a name.
const LETTERS: &[u8; 36] = b"ABCDEFGHIJKLMNOPQRSTUVWXYZ0123456789";

/// How a name is made from another.
#[derive(Clone, Copy)]
pub enum Way {
    /// Another letter in front, in the middle, at the end, or anywhere.
    First,
    Middle,
    Last,
    Any,
    /// Two letters take each other's place.
    Swap,
    /// The other is a back part or a front part of the name.
    MoreInFront,
    MoreAtEnd,
    /// The name is a back part or a front part of the other.
    LessInFront,
    LessAtEnd,
}

use Way::*;

pub const WAYS: [Way; 9] = [
    First,
    Middle,
    Last,
    Any,
    Swap,
    MoreInFront,
    MoreAtEnd,
    LessInFront,
    LessAtEnd,
];

/// The ways of one set. Those of the first six keep the length.
const SETS: [&[Way]; 9] = [
    &[First],
    &[Middle],
    &[Last],
    &[First, Last],
    &[Middle, Swap],
    &[Any],
    &[MoreInFront, LessInFront],
    &[MoreAtEnd, LessAtEnd],
    &WAYS,
];

/// What a set starts from is cut from one of these, over and over.
const PATTERNS: [&str; 6] = ["N", "AB", "SEND", "X0", "Z9876543210", "SENDX"];

/// A name that is made from another, unless it would begin with a digit or have no letter.
pub fn like(random: &mut Random, name: &str, way: Way) -> Option<String> {
    let mut name = name.as_bytes().to_vec();
    let last = name.len() - 1;
    let place = random.between(0, last);
    let less = random.pick(&[1, 1 + place]);
    let letter = match random.once_in(2) {
        true => name[random.between(0, last)],
        false => random.pick(LETTERS),
    };
    match way {
        First => name[0] = letter,
        Middle => name[last / 2] = letter,
        Last => name[last] = letter,
        Any => name[place] = letter,
        Swap => name.swap(place, random.between(0, last)),
        MoreInFront => name.insert(0, letter),
        MoreAtEnd => name.push(letter),
        LessInFront => drop(name.drain(..less)),
        LessAtEnd => name.truncate(name.len() - less),
    }
    let begins = name.first().is_some_and(u8::is_ascii_alphabetic);
    begins.then(|| String::from_utf8(name).expect("letters and digits"))
}

/// So many different names of up to about so many letters, each like another of them.
pub fn alike(random: &mut Random, count: usize, letters: usize) -> Vec<String> {
    let ways = random.pick(&SETS);
    let pattern = random.pick(&PATTERNS).chars().cycle();
    let first: String = pattern.take(letters).collect();
    let longest = MOST_DECLARED.min(letters + 2);
    let mut names = Vec::new();
    let mut failed = 0;
    while names.len() < count {
        let other = names.get(random.below(names.len() + 1)).unwrap_or(&first);
        // the ways of one set may not lead to as many names
        let way = random.pick(if failed < 200 { ways } else { &WAYS });
        match like(random, other, way) {
            Some(name) if name.len() <= longest && name != "SEND" && !names.contains(&name) => {
                names.push(name);
            }
            _ => failed += 1,
        }
    }
    names
}

/// So many different names of exactly so many letters. Two neighbours in front, in the middle or at
/// the end make the difference.
pub fn of_length(random: &mut Random, count: usize, letters: usize) -> Vec<String> {
    let last = letters.saturating_sub(2);
    let place = random.pick(&[0, last / 2, last]);
    let mut names = BTreeSet::new();
    while names.len() < count {
        let mut name = "N".repeat(letters);
        let first = random.pick(&LETTERS[..26]);
        let pair = [first, random.pick(LETTERS)].map(char::from);
        let pair: String = pair.iter().take(letters).collect();
        name.replace_range(place..place + pair.len(), &pair);
        names.insert(name);
    }
    let mut names: Vec<String> = names.into_iter().collect();
    mix(random, &mut names);
    names
}

pub fn mix<T>(random: &mut Random, list: &mut [T]) {
    for place in 1..list.len() {
        list.swap(place, random.below(place + 1));
    }
}

/// The order of the archive's index, that of the alphabet, or any, and each of them from its end.
pub fn put_in_order(random: &mut Random, names: &mut [String]) {
    match random.below(4) {
        0 | 1 => names.sort_by_cached_key(|name| {
            let from_last: Vec<u8> = name.bytes().rev().collect();
            (name.len(), from_last)
        }),
        2 => names.sort(),
        _ => mix(random, names),
    }
    if random.once_in(2) {
        names.reverse();
    }
}

/// The declarations of names, in lists of up to so many and of no more than fit.
pub fn declarations(names: &[String], longest: usize) -> Vec<Vec<Token>> {
    let mut lists: Vec<Vec<Token>> = Vec::new();
    for name in names {
        let token = Token::Name(name.clone());
        match lists.last_mut() {
            Some(list)
                if list.len() < 2 * longest && length(list) + 1 + name.len() <= MOST_CELLS =>
            {
                list.extend([Token::Symbol(","), token]);
            }
            _ => lists.push(vec![Token::Keyword("INTEGER"), token]),
        }
    }
    lists
}

pub fn set(name: Token, value: Token) -> Vec<Token> {
    vec![name, Token::Symbol("="), value]
}

pub fn send(value: Token) -> Vec<Token> {
    let [open, closed] = ["(", ")"].map(Token::Symbol);
    vec![Token::Name("SEND".to_string()), open, value, closed]
}

/// Statements in which each name is assigned and each is an operand, in any order. The last has as
/// many operands as fit.
pub fn uses(random: &mut Random, names: &[String]) -> Vec<Vec<Token>> {
    let mut assigned: Vec<Token> = names.iter().cloned().map(Token::Name).collect();
    let mut operands = assigned.clone();
    mix(random, &mut assigned);
    mix(random, &mut operands);
    let mut chain = set(operands[0].clone(), Token::Decimal(1));
    let mut statements = Vec::new();
    for (name, operand) in assigned.into_iter().zip(operands) {
        let one = [Token::Symbol("-"), operand.clone()];
        if length(&chain) + length(&one) <= MOST_CELLS {
            chain.extend(one);
        }
        let both = set(name.clone(), operand.clone());
        match length(&both) <= MOST_CELLS {
            true => statements.push(both),
            false => statements.extend([set(name, Token::Decimal(1)), send(operand)]),
        }
    }
    statements.push(chain);
    statements
}
