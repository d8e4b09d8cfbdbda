//! How many orders and temporaries the translation of a line has, without translating it.

use crate::compact::{Compact, Line, Node, Piece, Pieces, Place};
use crate::condition::{Comparison, Condition};
use crate::sheet::{self, Simple};

/// How many orders a line has, and how many temporaries it uses.
pub fn counts(line: &sheet::Line) -> (u32, u32) {
    let mut compact = Compact::new(0);
    let line = compact.put_line(line);
    let count = compact.count(&line);
    (count.orders, count.temporaries)
}

/// How many orders a comparison has, its branch included.
pub fn comparison_orders(comparison: &Comparison) -> u32 {
    counts(&sheet::Line::If(Condition::Comparison(comparison.clone()))).0
}

/// Orders, and the temporaries that they use beside those that are in use before.
#[derive(Clone, Copy, Default)]
pub struct Count {
    pub orders: u32,
    pub temporaries: u32,
}

impl Count {
    fn and(self, other: Count) -> Count {
        Count {
            orders: self.orders + other.orders,
            temporaries: self.temporaries.max(other.temporaries),
        }
    }

    fn and_orders(self, orders: u32) -> Count {
        Count {
            orders: self.orders + orders,
            ..self
        }
    }
}

/// Counting what translating puts, without putting it.
impl Compact {
    pub fn count(&self, line: &Line) -> Count {
        match line {
            Line::Simple(simple) => self.count_simple(simple),
            Line::If(condition) => self.count_condition(*condition),
            // the SKIP
            Line::Else => Count::default().and_orders(1),
            Line::Finish => Count::default(),
        }
    }

    fn count_condition(&self, condition: Pieces) -> Count {
        match self.pieces(condition) {
            [Piece::Comparison(only)] => self.count_comparison(only),
            pieces => self.count_joined(pieces),
        }
    }

    /// "A condition of two or more begins with a new order COND." Each comparison starts with no
    /// temporary in use. Not inlined, so that other lines cost as little as can be.
    #[inline(never)]
    fn count_joined(&self, pieces: &[Piece]) -> Count {
        let mut count = Count::default().and_orders(1);
        for piece in pieces {
            if let Piece::Comparison(only) = piece {
                count = count.and(self.count_comparison(only));
            }
        }
        count
    }

    /// The comparison and its branch.
    fn count_comparison(&self, only: &Comparison<Place>) -> Count {
        self.count_binary(only.left, only.right).and_orders(1)
    }

    fn count_simple(&self, simple: &Simple<Place>) -> Count {
        match simple {
            Simple::Set(_, value) | Simple::Send(value) => {
                self.count_expression(*value).and_orders(1)
            }
            Simple::Goto(_) => Count::default().and_orders(1),
        }
    }

    fn count_expression(&self, place: Place) -> Count {
        match self.node(place) {
            Node::Word(_) | Node::Constant(_) => Count::default().and_orders(1),
            Node::Unary(_, operand) => self.count_expression(operand).and_orders(1),
            Node::Binary(_, left, right) => self.count_binary(left, right),
        }
    }

    /// With a right operand that is not plain, four orders beside those of the operands, and two
    /// temporaries or one and those of the right.
    fn count_binary(&self, left: Place, right: Place) -> Count {
        let left = self.count_expression(left);
        if self.node(right).is_plain() {
            return left.and_orders(1);
        }
        let right = self.count_expression(right);
        let right = Count {
            orders: right.orders + 4,
            temporaries: 1 + right.temporaries.max(1),
        };
        left.and(right)
    }
}
