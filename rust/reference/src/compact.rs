//! Sheets in few pieces: the nodes of all expressions stand in one list, and the pieces of all
//! conditions in another, so that none is allocated by itself. Source is read to such a sheet, and
//! translating, reading back and writing work on it.

mod conditions;

pub use conditions::{Piece, Pieces, Run};

use crate::sheet::{self, count, Expression, Operator, Sheet, Sign, Simple};
use crate::sheet::{OPERATORS, SIGNS};
use crate::text::put_number;

/// Where a node stands in its list.
pub type Place = u32;

/// A node of an expression, its operands by their places.
#[derive(Clone, Copy, Debug)]
pub enum Node {
    Word(u32),
    Constant(u32),
    Unary(Sign, Place),
    Binary(Operator, Place, Place),
}

impl Node {
    /// "A variable or constant is plain."
    pub fn is_plain(self) -> bool {
        matches!(self, Node::Word(_) | Node::Constant(_))
    }
}

/// A line of a compact sheet.
pub type Line = sheet::Line<Place, Pieces>;

pub struct Compact {
    pub variables: u32,
    pub nodes: Vec<Node>,
    pub pieces: Vec<Piece>,
    pub lines: Vec<Line>,
}

impl Compact {
    pub fn new(variables: u32) -> Compact {
        Compact {
            variables,
            nodes: Vec::new(),
            pieces: Vec::new(),
            lines: Vec::new(),
        }
    }

    /// Adds a node, and gives its place.
    pub fn put(&mut self, node: Node) -> Place {
        self.nodes.push(node);
        self.nodes.len() as Place - 1
    }

    pub fn node(&self, place: Place) -> Node {
        self.nodes[place as usize]
    }

    pub fn of(sheet: &Sheet) -> Compact {
        let mut compact = Compact::new(sheet.variables);
        for line in &sheet.lines {
            let line = compact.put_line(line);
            compact.lines.push(line);
        }
        compact
    }

    /// Adds the nodes and pieces of a line, and gives the line, which is not added.
    pub fn put_line(&mut self, line: &sheet::Line) -> Line {
        match line {
            sheet::Line::Simple(simple) => {
                Line::Simple(simple.map(|expression| self.put_all(expression)))
            }
            sheet::Line::If(condition) => Line::If(self.put_condition(condition)),
            sheet::Line::Else => Line::Else,
            sheet::Line::Finish => Line::Finish,
        }
    }

    /// Adds the nodes of an expression, and gives the place of the last.
    pub fn put_all(&mut self, expression: &Expression) -> Place {
        let node = match expression {
            Expression::Word(word) => Node::Word(*word),
            Expression::Constant(constant) => Node::Constant(*constant),
            Expression::Unary(sign, operand) => Node::Unary(*sign, self.put_all(operand)),
            Expression::Binary(operator, left, right) => {
                let (left, right) = (self.put_all(left), self.put_all(right));
                Node::Binary(*operator, left, right)
            }
        };
        self.put(node)
    }

    pub fn sheet(&self) -> Sheet {
        let line = |line: &Line| match line {
            Line::Simple(simple) => {
                sheet::Line::Simple(simple.map(|place| self.expression(*place)))
            }
            Line::If(condition) => sheet::Line::If(self.condition(*condition)),
            Line::Else => sheet::Line::Else,
            Line::Finish => sheet::Line::Finish,
        };
        Sheet {
            variables: self.variables,
            lines: self.lines.iter().map(line).collect(),
        }
    }

    fn expression(&self, place: Place) -> Expression {
        let operand = |place| Box::new(self.expression(place));
        match self.node(place) {
            Node::Word(word) => Expression::Word(word),
            Node::Constant(constant) => Expression::Constant(constant),
            Node::Unary(sign, only) => Expression::Unary(sign, operand(only)),
            Node::Binary(operator, left, right) => {
                Expression::Binary(operator, operand(left), operand(right))
            }
        }
    }
}

/// Writing. Each field but the first of a line stands behind a tab.
impl Compact {
    /// The sheet text.
    pub fn text(&self) -> Vec<u8> {
        let mut text = Vec::with_capacity(16 * (self.nodes.len() + self.lines.len()) + 32);
        text.extend_from_slice(b"SHEET\t");
        put_number(&mut text, self.variables);
        text.push(b'\t');
        put_number(&mut text, count(&self.lines));
        text.push(b'\n');
        for line in &self.lines {
            self.write(&mut text, line);
            text.push(b'\n');
        }
        text
    }

    /// "In a sheet an IF line ends with its expressions; a line `START`, the first part, where there
    /// is a second a line `ELSE` and that part, and a line `FINISH` follow, a lone u as a group of
    /// one."
    fn write(&self, text: &mut Vec<u8>, line: &Line) {
        match line {
            Line::Simple(simple) => self.write_simple(text, simple),
            Line::If(condition) => {
                text.extend_from_slice(b"IF");
                self.write_condition(text, *condition);
                text.extend_from_slice(b"\nSTART");
            }
            Line::Else => text.extend_from_slice(b"ELSE"),
            Line::Finish => text.extend_from_slice(b"FINISH"),
        }
    }

    fn write_simple(&self, text: &mut Vec<u8>, simple: &Simple<Place>) {
        match simple {
            Simple::Set(word, value) => {
                text.extend_from_slice(b"SET\t");
                put_number(text, *word);
                self.write_expression(text, *value);
            }
            Simple::Send(value) => {
                text.extend_from_slice(b"SEND");
                self.write_expression(text, *value);
            }
            Simple::Goto(instruction) => {
                text.extend_from_slice(b"GOTO\t");
                put_number(text, *instruction);
            }
        }
    }

    /// "Expressions are in prefix order, a field a node."
    fn write_expression(&self, text: &mut Vec<u8>, place: Place) {
        text.push(b'\t');
        match self.node(place) {
            Node::Word(word) => {
                text.push(b'W');
                put_number(text, word);
            }
            Node::Constant(constant) => {
                text.push(b'K');
                put_number(text, constant);
            }
            Node::Unary(sign, operand) => {
                text.extend_from_slice(SIGNS[sign as usize].1.as_bytes());
                self.write_expression(text, operand);
            }
            Node::Binary(operator, left, right) => {
                text.extend_from_slice(OPERATORS[operator as usize].1.as_bytes());
                self.write_expression(text, left);
                self.write_expression(text, right);
            }
        }
    }
}
