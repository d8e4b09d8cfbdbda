//! Joined conditions: every one of a few comparisons, with every answer of these, and the orders that
//! are nearly those of one.

mod answers;
mod branches;
mod by_hand;
mod limits;
mod machine;
mod near;
mod targets;

use skimp_reference::samples::{goto, of_variables, send, sheet};
use skimp_reference::sheet::{Expression, Line, Simple};

/// The orders of each comparison below, its branch included.
const ORDERS: usize = 3;

/// How many conditions there are of so many comparisons, from 0. Of two or more, half of them are runs
/// of each word. Those of a word with four comparisons are 11: with a first member of one comparison 6,
/// for the other three; of two 1, the run of the other word, times 2; of three 3, times 1.
const CONDITIONS: [usize; 7] = [0, 1, 2, 6, 22, 90, 394];

fn set(word: u32, value: u32) -> Line {
    Line::Simple(Simple::Set(word, Expression::Constant(value)))
}
