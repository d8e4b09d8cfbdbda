//! Ways to change the tokens and statements of a program, and the bytes of a source.

mod conditions;

use super::program::Statements;
use super::soup;
use super::token::Token;
use crate::random::Random;

/// Changes one token or statement. There must be at least one token.
pub fn change(random: &mut Random, statements: &mut Statements) {
    let place = random.below(statements.len());
    let other = random.below(statements.len());
    match random.below(18) {
        0 => {
            statements.remove(place);
            if statements.is_empty() {
                statements.push(vec![Token::Keyword("BEGIN")]);
            }
        }
        1 => statements.swap(place, other),
        2 => statements.insert(other, statements[place].clone()),
        3 => {
            let tail = statements[other].clone();
            statements[place].extend(tail);
        }
        4 => {
            let label = [Token::Decimal(soup::label(random)), Token::Symbol(":")];
            statements[place].splice(0..0, label);
        }
        5 => statements.insert(place, vec![Token::Symbol("->"), soup::some_label(random)]),
        6 => statements.truncate(place.max(1)),
        7..=9 => change_group(random, statements, place),
        10..=12 => conditions::change(random, statements),
        _ => change_token(random, &mut statements[place]),
    }
}

/// Puts a statement of a group in, changes one, or leaves one out.
fn change_group(random: &mut Random, statements: &mut Statements, place: usize) {
    let is_group = |statement: &Vec<Token>| {
        let word = |token: &Token| matches!(token, Token::Keyword("START" | "FINISH"));
        statement.iter().any(word)
    };
    let groups: Vec<usize> = (0..statements.len())
        .filter(|&place| is_group(&statements[place]))
        .collect();
    let group = (!groups.is_empty()).then(|| random.pick(&groups));
    let label = || [Token::Decimal(4711), Token::Symbol(":")];
    match (random.below(9), group) {
        (0, Some(group)) => drop(statements.remove(group)),
        (1, Some(group)) => statements[group].push(soup::token(random)),
        (2, Some(group)) => drop(statements[group].splice(0..0, label())),
        (3, Some(group)) => statements.insert(group, label().to_vec()),
        (4, Some(group)) => {
            statements[group] = soup::words("FINISH ELSE START").collect();
        }
        (5, Some(group)) => statements[group] = soup::words("FINISH").collect(),
        // an empty group, where the next closes this one
        (6, Some(group)) => statements.insert(group, condition()),
        (7, _) => statements.insert(place, condition()),
        (_, _) => {
            let words = random.pick(&["FINISH", "FINISH ELSE START"]);
            statements.insert(place, soup::words(words).collect());
        }
    }
}

/// An IF with a group that holds for all programs.
fn condition() -> Vec<Token> {
    let number = || Token::Decimal(1);
    let mut tokens = vec![Token::Keyword("IF"), number(), Token::Symbol("="), number()];
    tokens.extend(soup::words("THEN START"));
    tokens
}

fn change_token(random: &mut Random, statement: &mut Vec<Token>) {
    let place = random.below(statement.len());
    let other = random.below(statement.len());
    match random.below(8) {
        0 if statement.len() > 1 => {
            statement.remove(place);
        }
        0 | 1 => statement.insert(place, soup::token(random)),
        2 => statement.swap(place, other),
        3 => statement.insert(other, statement[place].clone()),
        4 => statement.truncate(place.max(1)),
        5 => statement[place] = soup::token(random),
        _ => statement[place] = similar(random, &statement[place]),
    }
}

/// Another token of the same sort.
fn similar(random: &mut Random, token: &Token) -> Token {
    match token {
        Token::Keyword(_) => soup::keyword(random),
        Token::Name(_) => soup::name(random),
        Token::Decimal(_) | Token::Quoted(_) => match random.below(2) {
            0 => soup::some_label(random),
            _ => soup::constant(random),
        },
        Token::Symbol(_) | Token::Stray(_) => soup::symbol(random),
    }
}

/// Changes some bytes of a source.
pub fn damage(random: &mut Random, source: &mut Vec<u8>) {
    let place = random.below(source.len() + 1);
    let end = random.between(place, source.len().min(place + 12));
    let is_inside = place < source.len();
    match random.below(14) {
        0 if is_inside => source[place] ^= 1 << random.below(8),
        1 if is_inside => source[place] = random.bits() as u8,
        2 => source.insert(place, random.pick(&[0, 9, 13, 31, 127, 128, 255])),
        3 => source.truncate(place),
        4 => drop(source.drain(..place)),
        5 => drop(source.drain(place..end)),
        6 => {
            let piece = source[place..end].to_vec();
            source.splice(place..place, piece);
        }
        7 | 8 => source.insert(place, random.pick(b"%%''!!;\n CcA1=()-><*+\\:,?")),
        9 if is_inside => source[place] = random.pick(b"%'!;\n CA1=()->*\\:,\""),
        10 => drop_line(random, source),
        11 => swap_lines(random, source),
        12 => drop(source.splice(place..place, b"%C".iter().copied())),
        _ => drop(source.splice(place..place, b"%C\n".iter().copied())),
    }
}

/// The places behind the line ends of a source, with its start and its end.
fn line_ends(source: &[u8]) -> Vec<usize> {
    let ends = (0..source.len()).filter(|&place| b";\n".contains(&source[place]));
    let ends = ends.map(|place| place + 1);
    [0].into_iter().chain(ends).chain([source.len()]).collect()
}

fn drop_line(random: &mut Random, source: &mut Vec<u8>) {
    let ends = line_ends(source);
    let line = random.below(ends.len() - 1);
    source.drain(ends[line]..ends[line + 1]);
}

/// Moves a line behind one that follows it.
fn swap_lines(random: &mut Random, source: &mut [u8]) {
    let ends = line_ends(source);
    let line = random.below(ends.len() - 1);
    let last = random.between(line + 1, ends.len() - 1);
    let length = ends[line + 1] - ends[line];
    source[ends[line]..ends[last]].rotate_left(length);
}
