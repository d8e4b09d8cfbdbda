//! Ways to change the tokens of a condition.

use crate::random::Random;
use crate::writing::program::Statements;
use crate::writing::token::Token;

/// Changes what joins the comparisons of an IF, if there is one.
pub fn change(random: &mut Random, statements: &mut Statements) {
    let places = 0..statements.len();
    let ifs: Vec<usize> = places
        .filter(|&it| end(&statements[it]).is_some())
        .collect();
    if !ifs.is_empty() {
        let place = random.pick(&ifs);
        change_one(random, &mut statements[place]);
    }
}

/// Where the condition of an IF ends.
fn end(statement: &[Token]) -> Option<usize> {
    let then = Token::Keyword("THEN");
    statement.iter().position(|token| *token == then)
}

/// Puts a word, a bracket, two of them or a comparison in, changes a word or a bracket, or leaves one
/// out.
fn change_one(random: &mut Random, statement: &mut Vec<Token>) {
    let end = end(statement).unwrap_or(0);
    let first = random.between(0, end);
    let second = random.between(first, end);
    let joining: Vec<usize> = (0..end).filter(|&it| joins(&statement[it])).collect();
    let other = (!joining.is_empty()).then(|| random.pick(&joining));
    match (random.below(6), other) {
        (0, Some(other)) => drop(statement.remove(other)),
        (1, Some(other)) => statement[other] = some(random),
        (2, Some(other)) => statement.insert(other, statement[other].clone()),
        (3, _) => statement.insert(first, some(random)),
        (4, _) => {
            statement.insert(second, Token::Symbol(")"));
            statement.insert(first, Token::Symbol("("));
        }
        _ => {
            let one = || Token::Decimal(1);
            let word = Token::Keyword(random.pick(&["AND", "OR"]));
            let more = [word, one(), Token::Symbol("="), one()];
            drop(statement.splice(second..second, more));
        }
    }
}

/// Whether a token joins comparisons or parts them.
fn joins(token: &Token) -> bool {
    matches!(
        token,
        Token::Keyword("AND" | "OR") | Token::Symbol("(" | ")")
    )
}

/// Such a token.
fn some(random: &mut Random) -> Token {
    match random.below(4) {
        0 => Token::Symbol("("),
        1 => Token::Symbol(")"),
        2 => Token::Keyword("AND"),
        _ => Token::Keyword("OR"),
    }
}
