//! Sheets: what they are.

use crate::compact::Compact;
use crate::condition::Condition;

/// An expression, as levels and brackets part it.
#[derive(Clone, Debug, PartialEq, Eq)]
pub enum Expression {
    /// A variable, by its word.
    Word(u32),
    Constant(u32),
    Unary(Sign, Box<Expression>),
    Binary(Operator, Box<Expression>, Box<Expression>),
}

#[derive(Clone, Copy, Debug, PartialEq, Eq)]
pub enum Sign {
    Neg,
    Not,
}

#[derive(Clone, Copy, Debug, PartialEq, Eq)]
#[rustfmt::skip]
pub enum Operator { Add, Sub, Mul, Div, Pow, Shl, Shr, And, Or, Xor }

#[derive(Clone, Copy, Debug, PartialEq, Eq)]
#[rustfmt::skip]
pub enum Relation { Equal, Unequal, Less, AtMost, Greater, AtLeast }

pub const SIGNS: [(Sign, &str); 2] = [(Sign::Neg, "NEG"), (Sign::Not, "NOT")];

/// The operators as the source writes them.
pub const OPERATORS: [(Operator, &str); 10] = [
    (Operator::Add, "+"),
    (Operator::Sub, "-"),
    (Operator::Mul, "*"),
    (Operator::Div, "/"),
    (Operator::Pow, "**"),
    (Operator::Shl, "<<"),
    (Operator::Shr, ">>"),
    (Operator::And, "&"),
    (Operator::Or, "!"),
    (Operator::Xor, "!!"),
];

pub const RELATIONS: [(Relation, &str); 6] = [
    (Relation::Equal, "="),
    (Relation::Unequal, "#"),
    (Relation::Less, "<"),
    (Relation::AtMost, "<="),
    (Relation::Greater, ">"),
    (Relation::AtLeast, ">="),
];

/// An instruction that is no IF. `E` is what stands for an expression.
#[derive(Clone, Copy, Debug, PartialEq, Eq)]
pub enum Simple<E = Expression> {
    /// The word becomes the expression's value.
    Set(u32, E),
    Send(E),
    /// "s is an instruction's number from 1, or one past the last for the end."
    Goto(u32),
}

/// A line of a sheet's text. The line START, which follows each IF, has no case of its own. `C` is
/// what stands for a condition.
#[derive(Clone, Copy, Debug, PartialEq, Eq)]
pub enum Line<E = Expression, C = Condition> {
    Simple(Simple<E>),
    /// Its first part goes on to the line ELSE or FINISH of the same level.
    If(C),
    Else,
    Finish,
}

#[derive(Clone, Debug, PartialEq, Eq)]
pub struct Sheet {
    /// V. The variables are the words 2 to V + 1.
    pub variables: u32,
    pub lines: Vec<Line>,
}

impl Expression {
    /// "A variable or constant is plain."
    pub fn is_plain(&self) -> bool {
        matches!(self, Expression::Word(_) | Expression::Constant(_))
    }
}

impl<E> Simple<E> {
    /// The same with another expression.
    pub fn map<F>(&self, change: impl FnOnce(&E) -> F) -> Simple<F> {
        match self {
            Simple::Set(word, value) => Simple::Set(*word, change(value)),
            Simple::Send(value) => Simple::Send(change(value)),
            Simple::Goto(instruction) => Simple::Goto(*instruction),
        }
    }
}

impl<E, C> Line<E, C> {
    /// "Sheet numbers count every instruction, nested ones and the IF itself included."
    pub fn is_instruction(&self) -> bool {
        matches!(self, Line::Simple(_) | Line::If(_))
    }

    /// Where it leads, if it is a GOTO.
    pub fn target(&mut self) -> Option<&mut u32> {
        match self {
            Line::Simple(Simple::Goto(target)) => Some(target),
            _ => None,
        }
    }
}

/// How many of the lines are instructions.
pub fn count<E, C>(lines: &[Line<E, C>]) -> u32 {
    lines.iter().filter(|line| line.is_instruction()).count() as u32
}

/// For each IF the place of the line that closes its first part, for each ELSE that of its FINISH,
/// and 0 for other lines.
pub fn closings<E, C>(lines: &[Line<E, C>]) -> Vec<usize> {
    let mut closings = vec![0; lines.len()];
    let mut open = Vec::new();
    for (place, line) in lines.iter().enumerate() {
        if let Line::Else | Line::Finish = line {
            closings[open.pop().expect("an open part")] = place;
        }
        if let Line::If(_) | Line::Else = line {
            open.push(place);
        }
    }
    closings
}

/// How many IFs stand in each other at most.
pub fn depth<E, C>(lines: &[Line<E, C>]) -> usize {
    let (mut most, mut open) = (0, 0);
    for line in lines {
        match line {
            Line::If(_) => open += 1,
            Line::Finish => open -= 1,
            _ => {}
        }
        most = most.max(open);
    }
    most
}

/// The conditions of the IFs.
pub fn conditions<E, C>(lines: &[Line<E, C>]) -> impl Iterator<Item = &C> {
    lines.iter().filter_map(|line| match line {
        Line::If(condition) => Some(condition),
        _ => None,
    })
}

impl Sheet {
    /// How many instructions it has.
    pub fn count(&self) -> u32 {
        count(&self.lines)
    }

    /// The sheet text.
    pub fn text(&self) -> String {
        let text = Compact::of(self).text();
        String::from_utf8(text).expect("letters, digits and signs")
    }
}
