//! Expressions by another method than the reference's: split at the last operator of the lowest
//! level outside brackets. A leading plus or minus is such an operator, without a left operand.

use crate::third_line;

/// Document 01's levels, the lowest first.
const LEVELS: [&[&str]; 3] = [
    &["+", "-", "!", "!!"],
    &["*", "/", "&"],
    &["**", "<<", ">>"],
];

/// The fields of an expression, if the tokens are one. Only with `begins` may a sign be first.
pub fn fields(tokens: &[&str], begins: bool) -> Option<String> {
    for level in LEVELS {
        let Some(place) = last_outside_brackets(tokens, level) else {
            continue;
        };
        let right = fields(&tokens[place + 1..], false)?;
        return match (place, tokens[place]) {
            (0, "+") if begins => Some(right),
            (0, "-") if begins => Some(format!("NEG {right}")),
            (0, _) => None,
            (_, operator) => {
                let left = fields(&tokens[..place], begins)?;
                Some(format!("{operator} {left} {right}"))
            }
        };
    }
    match tokens {
        ["\\", operand @ ..] if begins => Some(format!("NOT {}", fields(operand, false)?)),
        ["(", inner @ .., ")"] => fields(inner, true),
        ["A"] => Some("W2".to_string()),
        ["1"] => Some("K1".to_string()),
        _ => None,
    }
}

fn last_outside_brackets(tokens: &[&str], operators: &[&str]) -> Option<usize> {
    let mut depth = 0;
    let mut last = None;
    for (place, token) in tokens.iter().enumerate() {
        match *token {
            "(" => depth += 1,
            ")" => depth -= 1,
            token if depth == 0 && operators.contains(&token) => last = Some(place),
            _ => {}
        }
    }
    last
}

/// Visits every list of up to so many of the tokens.
pub fn every_list<'t>(tokens: &[&'t str], most: usize, visit: &mut impl FnMut(&[&'t str])) {
    fn go_on<'t>(
        list: &mut Vec<&'t str>,
        tokens: &[&'t str],
        most: usize,
        visit: &mut impl FnMut(&[&'t str]),
    ) {
        visit(list);
        if list.len() < most {
            for token in tokens {
                list.push(token);
                go_on(list, tokens, most, visit);
                list.pop();
            }
        }
    }
    go_on(&mut Vec::new(), tokens, most, visit);
}

/// Holds the reference to this method on every list of up to so many tokens. Gives how many of
/// them are expressions.
fn check(tokens: &[&str], most: usize) -> usize {
    let mut expressions = 0;
    every_list(tokens, most, &mut |list| {
        // two operators or two operands side by side may be read as one
        let joined =
            |pair: &[&str]| ["**", "!!", "AA", "A1", "11"].contains(&pair.concat().as_str());
        if list.windows(2).any(joined) {
            return;
        }
        let expected = match fields(list, true) {
            Some(fields) => {
                expressions += 1;
                format!("SET 2 {fields}")
            }
            None => "7 at 3".to_string(),
        };
        let statement = format!("A={}", list.concat());
        assert_eq!(third_line(&statement), expected, "{statement}");
    });
    expressions
}

#[test]
fn every_expression() {
    let counts = [
        check(&["A", "1", "(", ")", "+", "-", "\\", "*", "**", "!"], 5),
        check(&["A", "(", ")", "-", "\\", "&"], 7),
        // no sign but the minus and no bracket, so that more operators fit
        check(&["A", "-", "*", ">>"], 9),
    ];
    println!("{counts:?} expressions");
    assert!(counts.iter().all(|&count| count >= 100), "{counts:?}");
}
