//! Joined conditions: their forms and refusals, brackets that they do not need, and their limit.

mod brackets;
mod forms;
mod limits;
mod splitting;

use crate::third_line;

/// What the condition of an IF is read to: its fields, or the number of the refusal and its place.
fn asked(condition: &str) -> String {
    let line = third_line(&format!("%IF {condition} %THEN A=1"));
    let fields = line
        .strip_prefix("IF ")
        .and_then(|line| line.strip_suffix("; START; SET 2 K1; FINISH"));
    fields.unwrap_or(&line).to_string()
}

/// Holds each condition to what it is read to.
fn check(vectors: &[(&str, &str)]) {
    for (condition, expected) in vectors {
        assert_eq!(asked(condition), *expected, "{condition:?}");
    }
}

/// Holds each condition to being of no form.
fn refused(conditions: &[&str]) {
    for condition in conditions {
        assert_eq!(asked(condition), "7 at 3", "{condition:?}");
    }
}
