//! Ways to damage an object: its text, or the orders of a translation.

pub mod orders;
pub mod texts;
