//! Statements of random tokens.

use super::characters::packed;
use super::program::Statements;
use super::spelling::Style;
use super::token::{Token, KEYWORDS, SYMBOLS};
use crate::limits::{GREATEST_LABEL, MOST_NUMBER};
use crate::random::Random;

/// A source of random tokens, mostly between the statements that a program has first and last.
pub fn source(random: &mut Random) -> Vec<u8> {
    let mut statements = Statements::new();
    if !random.once_in(10) {
        statements.push(vec![Token::Keyword("BEGIN")]);
        statements.extend(declarations(random));
    }
    let most = random.pick(&[5, 5, 12]);
    for _ in 0..random.between(1, most) {
        statements.push(statement(random));
    }
    // mostly as many `%FINISH` as there are `%START`
    let opens = |statement: &&Vec<Token>| statement.ends_with(&[Token::Keyword("START")]);
    let closes = |statement: &&Vec<Token>| statement.first() == Some(&Token::Keyword("FINISH"));
    let open = statements.iter().filter(opens).count();
    let closed = statements.iter().filter(closes).count();
    for _ in closed..open {
        if !random.once_in(8) {
            statements.push(vec![Token::Keyword("FINISH")]);
        }
    }
    if !random.once_in(4) {
        statements.push(vec![Token::Keyword("ENDOFPROGRAM")]);
    }
    Style::random(random).source(random, &statements)
}

fn declarations(random: &mut Random) -> Statements {
    let list = |names: &[&str]| {
        let mut tokens = vec![Token::Keyword("INTEGER")];
        for name in names {
            tokens.extend([Token::Name(name.to_string()), Token::Symbol(",")]);
        }
        tokens.pop();
        tokens
    };
    match random.below(4) {
        0 => Vec::new(),
        1 => vec![list(&["A"]), list(&["B"])],
        _ => vec![list(&["A", "B", "C"])],
    }
}

fn statement(random: &mut Random) -> Vec<Token> {
    let mut tokens = Vec::new();
    if random.once_in(4) {
        tokens.extend([some_label(random), Token::Symbol(":")]);
    }
    match random.below(14) {
        0 | 1 => tokens.extend((0..random.between(1, 8)).map(|_| token(random))),
        2 => {
            tokens.push(Token::Keyword("INTEGER"));
            tokens.extend((0..random.between(0, 4)).map(|_| match random.below(6) {
                0 => token(random),
                1..=2 => Token::Symbol(","),
                _ => name(random),
            }));
        }
        3 | 4 => conditional(random, &mut tokens),
        10 | 11 => {
            // a label before it is never good
            if !random.once_in(4) {
                tokens.clear();
            }
            tokens.extend(words(random.pick(&CLOSINGS)));
        }
        _ => simple(random, &mut tokens),
    }
    // one wrong token more often finds its own refusal than many
    if random.once_in(6) {
        let place = random.below(tokens.len() + 1);
        tokens.insert(place, token(random));
    }
    tokens
}

/// What may close a group, and what nearly does.
const CLOSINGS: [&str; 10] = [
    "FINISH",
    "FINISH",
    "FINISH",
    "FINISH",
    "FINISH ELSE START",
    "FINISH ELSE START",
    "FINISH ELSE",
    "FINISH START",
    "ELSE START",
    "START",
];

/// Keywords, each from a word of a text.
pub fn words(text: &'static str) -> impl Iterator<Item = Token> {
    text.split(' ').map(Token::Keyword)
}

fn conditional(random: &mut Random, tokens: &mut Vec<Token>) {
    tokens.push(Token::Keyword("IF"));
    condition(random, tokens);
    tokens.push(Token::Keyword("THEN"));
    part(random, tokens);
    if random.once_in(3) {
        tokens.push(Token::Keyword("ELSE"));
        part(random, tokens);
    }
}

/// What may stand behind `%THEN` and `%ELSE`.
fn part(random: &mut Random, tokens: &mut Vec<Token>) {
    match random.below(2) {
        0 => tokens.push(Token::Keyword("START")),
        _ => simple(random, tokens),
    }
}

/// Comparisons, brackets and joining words, now and then in places of any kind.
fn condition(random: &mut Random, tokens: &mut Vec<Token>) {
    let word = random.pick(&["AND", "OR"]);
    loop {
        if random.once_in(4) {
            tokens.push(Token::Symbol("("));
            condition(random, tokens);
            tokens.push(Token::Symbol(")"));
        } else {
            comparison(random, tokens);
        }
        if !random.once_in(3) {
            return;
        }
        tokens.push(match random.below(16) {
            0 => keyword(random),
            1 => Token::Keyword(random.pick(&["AND", "OR"])),
            _ => Token::Keyword(word),
        });
    }
}

fn comparison(random: &mut Random, tokens: &mut Vec<Token>) {
    expression(random, tokens);
    if !random.once_in(32) {
        tokens.push(relation(random));
        expression(random, tokens);
    }
}

fn relation(random: &mut Random) -> Token {
    match random.below(12) {
        0 => symbol(random),
        _ => Token::Symbol(random.pick(&["=", "#", "<", "<=", ">", ">="])),
    }
}

fn simple(random: &mut Random, tokens: &mut Vec<Token>) {
    match random.below(4) {
        0 => tokens.extend([Token::Symbol("->"), some_label(random)]),
        1 => {
            tokens.extend([Token::Name("SEND".to_string()), Token::Symbol("(")]);
            expression(random, tokens);
            tokens.push(Token::Symbol(")"));
        }
        _ => {
            tokens.extend([name(random), Token::Symbol("=")]);
            expression(random, tokens);
        }
    }
}

/// Operands and operators, now and then with signs and brackets in places of any kind.
fn expression(random: &mut Random, tokens: &mut Vec<Token>) {
    if random.once_in(3) {
        tokens.push(Token::Symbol(random.pick(&["+", "-", "\\"])));
    }
    operand(random, tokens);
    for _ in 0..random.pick(&[0, 0, 0, 1, 1, 2, 3]) {
        tokens.push(Token::Symbol(match random.below(24) {
            0 => random.pick(&SYMBOLS),
            _ => random.pick(&["+", "-", "*", "/", "**", "<<", ">>", "&", "!", "!!"]),
        }));
        if random.once_in(24) {
            tokens.push(Token::Symbol(random.pick(&["+", "-", "\\"])));
        }
        operand(random, tokens);
    }
}

fn operand(random: &mut Random, tokens: &mut Vec<Token>) {
    match random.below(16) {
        0 | 1 => {
            tokens.push(Token::Symbol("("));
            expression(random, tokens);
            tokens.push(Token::Symbol(")"));
        }
        // side by side they are one constant, of a quote between the characters of both
        2 if random.once_in(3) => {
            tokens.extend([2, 2].map(|most| Token::Quoted(packed(random, most))));
        }
        2..=8 => tokens.push(name(random)),
        9..=15 if !random.once_in(20) => tokens.push(constant(random)),
        _ => tokens.push(token(random)),
    }
}

/// Any token.
pub fn token(random: &mut Random) -> Token {
    match random.below(16) {
        0..=2 => keyword(random),
        3..=5 => name(random),
        6..=8 => constant(random),
        9 => Token::Stray(random.pick(b"\"$.?@[]^_`{|}~")),
        _ => symbol(random),
    }
}

/// Mostly a keyword of the language.
pub fn keyword(random: &mut Random) -> Token {
    Token::Keyword(match random.below(4) {
        0 => random.pick(&[
            "C",
            "END",
            "IFS",
            "BEGI",
            "THENC",
            "ENDOFPROGRAMIF",
            "FINISHELSESTART",
            "THENSTART",
            "STARTS",
            "FINIS",
            "ANDOR",
            "ORAND",
            "ANDS",
            "AN",
            "O",
            "X",
            "CC",
        ]),
        _ => random.pick(&KEYWORDS),
    })
}

/// Mostly one that `declarations` declares.
pub fn name(random: &mut Random) -> Token {
    let name = match random.below(16) {
        0 => "SEND",
        1 => random.pick(&["AB", "A1", "D", "IF", "SENDA", "SEN"]),
        _ => random.pick(&["A", "B", "C"]),
    };
    Token::Name(name.to_string())
}

/// A constant, sometimes one that is not valid.
pub fn constant(random: &mut Random) -> Token {
    match random.below(24) {
        0 => Token::Decimal(random.pick(&[2147483647, 2147483648, 4294967295, 4294967295])),
        1 => Token::Quoted(0),
        2 => Token::Quoted(random.pick(&[0x27, 0x2727, 0x27272727, 0x0A, 0x61257E3B, 0x2020])),
        3..=5 => Token::Quoted(packed(random, 4)),
        _ => Token::Decimal(random.below(40) as u32),
    }
}

pub fn symbol(random: &mut Random) -> Token {
    Token::Symbol(random.pick(&SYMBOLS))
}

/// A label's number, sometimes one that no label has.
pub fn label(random: &mut Random) -> u32 {
    match random.below(12) {
        0 => random.pick(&[0, GREATEST_LABEL + 1, MOST_NUMBER, MOST_NUMBER + 1]),
        1 => random.pick(&[GREATEST_LABEL, 999, 1000]),
        _ => random.between(1, 3) as u32,
    }
}

/// What may stand for a label: now and then another constant.
pub fn some_label(random: &mut Random) -> Token {
    match random.below(24) {
        0 => constant(random),
        _ => Token::Decimal(label(random)),
    }
}
