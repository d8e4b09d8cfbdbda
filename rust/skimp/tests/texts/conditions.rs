//! Joined conditions, from source to object, sheet and run: every one of a few comparisons, random ones
//! of many, those that are of no form, and objects that are nearly theirs.

mod by_hand;
mod every;
mod limits;
mod near;
mod random;

use skimp_reference::condition::Condition;
use skimp_reference::samples::{goto, of_variables, send, sheet};

/// The condition whose comparison of number k asks whether the variable k is 1, as source text.
fn texts(shape: &Condition<usize>) -> Condition<String> {
    shape.map(&mut |number| format!("V{number}=1"))
}

/// The declaration of so many variables.
fn declared(count: usize) -> String {
    let names: Vec<String> = (0..count).map(|number| format!("V{number}")).collect();
    format!("%INTEGER {}\n", names.join(","))
}
