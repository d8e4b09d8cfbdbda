//! Conditions by another method than the reference's: split at the words outside brackets, else at the
//! relation outside brackets, else taken out of their brackets.

use super::asked;
use crate::splitting::{every_list, fields};

/// The fields of a condition, if the tokens are one, and the word if it is a run.
fn split(tokens: &[&str]) -> Option<(String, Option<String>)> {
    let words = outside_brackets(tokens, &["%AND ", "%OR "]);
    if let Some(&first) = words.first() {
        let word = tokens[first];
        if words.iter().any(|&place| tokens[place] != word) {
            return None;
        }
        let word = word.trim_matches(['%', ' ']).to_string();
        let (mut count, mut members) = (0, String::new());
        for member in tokens.split_at_all(&words) {
            let (fields, inner) = split(member)?;
            // a run of the same word is merged: without it and its number
            let (number, rest) = match inner {
                Some(inner) if inner == word => {
                    let mut parts = fields.splitn(3, ' ').skip(1);
                    let number = parts.next()?.parse().ok()?;
                    (number, parts.next()?.to_string())
                }
                _ => (1, fields),
            };
            count += number;
            members += &format!(" {rest}");
        }
        return Some((format!("{word} {count}{members}"), Some(word)));
    }
    match outside_brackets(tokens, &["="])[..] {
        [place] => {
            let (left, right) = (&tokens[..place], &tokens[place + 1..]);
            let fields = format!("= {} {}", fields(left, true)?, fields(right, true)?);
            Some((fields, None))
        }
        [] => match tokens {
            ["(", inner @ .., ")"] if balanced(inner) => split(inner),
            _ => None,
        },
        _ => None,
    }
}

trait SplitAtAll<'t> {
    /// The parts between the places.
    fn split_at_all(&self, places: &[usize]) -> Vec<&[&'t str]>;
}

impl<'t> SplitAtAll<'t> for [&'t str] {
    fn split_at_all(&self, places: &[usize]) -> Vec<&[&'t str]> {
        let mut parts = Vec::new();
        let mut first = 0;
        for &place in places {
            parts.push(&self[first..place]);
            first = place + 1;
        }
        parts.push(&self[first..]);
        parts
    }
}

/// The places of some tokens that stand in no brackets.
fn outside_brackets(tokens: &[&str], wanted: &[&str]) -> Vec<usize> {
    let mut depth = 0;
    let mut places = Vec::new();
    for (place, token) in tokens.iter().enumerate() {
        match *token {
            "(" => depth += 1,
            ")" => depth -= 1,
            token if depth == 0 && wanted.contains(&token) => places.push(place),
            _ => {}
        }
    }
    places
}

/// Whether no bracket is closed before it is opened, and all are closed.
fn balanced(tokens: &[&str]) -> bool {
    let mut depth = 0;
    for token in tokens {
        depth += match *token {
            "(" => 1,
            ")" => -1,
            _ => 0,
        };
        if depth < 0 {
            return false;
        }
    }
    depth == 0
}

/// Holds the reference to this method on every list of up to so many tokens. Gives how many of them
/// are conditions, and how many joined ones.
fn check(tokens: &[&str], most: usize) -> [usize; 2] {
    let mut counts = [0; 2];
    every_list(tokens, most, &mut |list| {
        let parts: Vec<&str> = list.iter().flat_map(|piece| parts(piece)).collect();
        // two operands side by side are one
        let joined = |pair: &[&str]| ["AA", "A1", "11", "1A"].contains(&pair.concat().as_str());
        if parts.windows(2).any(joined) {
            return;
        }
        let split = if balanced(&parts) {
            split(&parts)
        } else {
            None
        };
        let expected = match split {
            Some((fields, word)) => {
                counts[0] += 1;
                counts[1] += usize::from(word.is_some());
                fields
            }
            None => "7 at 3".to_string(),
        };
        let condition = list.concat();
        assert_eq!(asked(&condition), expected, "{condition}");
    });
    counts
}

/// The tokens of a piece.
fn parts(piece: &str) -> Vec<&str> {
    match piece {
        "A=1" => vec!["A", "=", "1"],
        "A=1%AND " => vec!["A", "=", "1", "%AND "],
        "A=1%OR " => vec!["A", "=", "1", "%OR "],
        "=1" => vec!["=", "1"],
        "*A" => vec!["*", "A"],
        piece => vec![piece],
    }
}

#[test]
fn every_condition() {
    let counts = [
        // runs and brackets
        check(
            &["A=1%AND ", "A=1%OR ", "A=1", "(", ")", "%AND ", "%OR "],
            7,
        ),
        check(&["A=1%AND ", "A=1%OR ", "A=1", "(", ")"], 8),
        // brackets of expressions and of conditions
        check(&["A", "=1", "(", ")", "-", "%AND "], 7),
        check(&["A", "=", "(", ")", "*A", "%OR "], 8),
    ];
    println!("{counts:?} conditions");
    let least = [[200, 200], [120, 120], [50, 5], [80, 4]];
    for (counts, least) in counts.into_iter().zip(least) {
        let enough = counts[0] >= least[0] && counts[1] >= least[1];
        assert!(enough, "{counts:?} of at least {least:?}");
    }
}
