//! Small conditions, instructions and sheets, for tests of both sides.

use crate::condition::{Comparison, Condition};
use crate::sheet::{Expression, Line, Relation, Sheet, Simple};

/// The condition whose comparison of number k asks whether the variable k is 1.
pub fn of_variables(shape: &Condition<usize>) -> Condition {
    shape.map(&mut |number| Comparison {
        relation: Relation::Equal,
        left: Expression::Word(2 + *number as u32),
        right: Expression::Constant(1),
    })
}

/// SEND of a constant.
pub fn send(number: u32) -> Line {
    Line::Simple(Simple::Send(Expression::Constant(number)))
}

pub fn goto(instruction: u32) -> Line {
    Line::Simple(Simple::Goto(instruction))
}

pub fn sheet(variables: usize, lines: Vec<Line>) -> Sheet {
    Sheet {
        variables: variables as u32,
        lines,
    }
}
