//! Conditions as source text, given their comparisons.

use crate::condition::{Condition, Joining};

/// The text of a condition, its comparisons as they are given. Brackets that it does not need stand
/// wherever `needless` says so: round a comparison, round a run, and round some members of one, which
/// a sheet merges again.
pub fn text(condition: &Condition<String>, needless: &mut impl FnMut() -> bool) -> String {
    let text = match condition {
        Condition::Comparison(only) => only.clone(),
        Condition::Run(word, members) => members_text(*word, members, needless),
    };
    match needless() {
        true => format!("({text})"),
        false => text,
    }
}

/// The text without needless brackets.
pub fn plain_text(condition: &Condition<String>) -> String {
    text(condition, &mut || false)
}

fn members_text(
    word: Joining,
    members: &[Condition<String>],
    needless: &mut impl FnMut() -> bool,
) -> String {
    let mut written = String::new();
    for (place, member) in members.iter().enumerate() {
        if place > 0 {
            written += match word {
                Joining::And => " %AND ",
                Joining::Or => " %OR ",
            };
        }
        let member_text = text(member, needless);
        written += &match member {
            Condition::Comparison(_) => member_text,
            Condition::Run(..) => format!("({member_text})"),
        };
        // those so far
        if place > 0 && needless() {
            written = format!("({written})");
        }
    }
    written
}
