//! Constants that a source may write in quotes.

use crate::random::Random;
use crate::sheet::{Expression, Line, Sheet, Simple};

/// Makes some constants of a sheet such that they may be written in quotes.
pub fn put(random: &mut Random, sheet: &mut Sheet) {
    for line in &mut sheet.lines {
        match line {
            Line::Simple(Simple::Set(_, value) | Simple::Send(value)) => {
                put_in_expression(random, value);
            }
            Line::If(condition) => {
                for only in condition.comparisons_mut() {
                    put_in_expression(random, &mut only.left);
                    put_in_expression(random, &mut only.right);
                }
            }
            _ => {}
        }
    }
}

fn put_in_expression(random: &mut Random, expression: &mut Expression) {
    match expression {
        Expression::Word(_) => {}
        Expression::Constant(value) => {
            if random.once_in(8) {
                *value = packed(random, 4);
            }
        }
        Expression::Unary(_, operand) => put_in_expression(random, operand),
        Expression::Binary(_, left, right) => {
            put_in_expression(random, left);
            put_in_expression(random, right);
        }
    }
}

/// One to so many characters as a quoted constant packs them, often such as have a meaning outside
/// quotes.
pub fn packed(random: &mut Random, most: usize) -> u32 {
    let character = |random: &mut Random| match random.below(2) {
        0 => random.between(32, 126) as u8,
        _ => random.pick(b"'';\n%! aczC1~"),
    };
    let count = random.between(1, most);
    (0..count).fold(0, |value, _| value << 8 | u32::from(character(random)))
}
