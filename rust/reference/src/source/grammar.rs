//! The form of a statement.

mod conditions;

use super::tokens::{Name, Token};
use crate::compact::{Piece, Place};
use crate::sheet::{Operator, Relation, Sign};

/// A statement, its names and labels as they are written.
pub enum Statement<'t> {
    Begin,
    /// The names, parted by commas.
    Integer(&'t [Token]),
    /// The labels, each with its colon, and the instruction behind them if there is one.
    Labelled(&'t [Token], Option<Instruction>),
    Finish,
    /// `%FINISH %ELSE %START`
    FinishElseStart,
    EndOfProgram,
}

pub enum Instruction {
    Simple(Simple),
    /// The pieces of the statement are its condition.
    If(Parts),
}

/// What stands behind `%THEN`.
pub enum Parts {
    /// One u or, with `%ELSE`, two.
    Simple(Simple, Option<Simple>),
    /// `%START`
    Group,
}

/// An instruction that may stand after `%THEN` and `%ELSE`.
pub enum Simple {
    Assignment(Name, Place),
    Send(Place),
    Jump(u32),
}

/// A node of an expression, its operands by their places in the list of the statement's nodes.
#[derive(Clone, Copy)]
pub enum Node {
    Name(Name),
    Constant(u32),
    Unary(Sign, Place),
    Binary(Operator, Place, Place),
}

/// The level of `+ - ! !!`, and of a leading minus.
const LOWEST: u32 = 1;

/// "Levels, highest first: `\`; `** << >>`; `* / &`; `+ - ! !!`." The level of `\` needs no number,
/// as it takes but one operand.
fn level(operator: Operator) -> u32 {
    match operator {
        Operator::Pow | Operator::Shl | Operator::Shr => 3,
        Operator::Mul | Operator::Div | Operator::And => 2,
        Operator::Add | Operator::Sub | Operator::Or | Operator::Xor => LOWEST,
    }
}

/// The lists that a statement's expressions and its condition are put into.
#[derive(Default)]
pub struct Lists {
    pub nodes: Vec<Node>,
    pub pieces: Vec<Piece>,
}

/// The statement that the tokens are, if they are of a form. Its nodes and pieces take the place of
/// those that are in the lists.
pub fn parse<'t>(tokens: &'t [Token], cells: &[u8], lists: &mut Lists) -> Option<Statement<'t>> {
    lists.nodes.clear();
    lists.pieces.clear();
    let mut parser = Parser {
        rest: tokens,
        cells,
        nodes: &mut lists.nodes,
        pieces: &mut lists.pieces,
    };
    let statement = parser.statement()?;
    parser.rest.is_empty().then_some(statement)
}

/// The tokens that are left. Each part of the form takes its own from the front.
struct Parser<'t, 's> {
    rest: &'t [Token],
    cells: &'s [u8],
    nodes: &'s mut Vec<Node>,
    pieces: &'s mut Vec<Piece>,
}

impl<'t> Parser<'t, '_> {
    fn statement(&mut self) -> Option<Statement<'t>> {
        let labels = self.labels();
        // a labelled `%BEGIN`, `%INTEGER`, `%FINISH` or `%ENDOFPROGRAM` has no form
        if labels.is_empty() {
            if self.take(Token::Begin) {
                return Some(Statement::Begin);
            }
            if self.take(Token::Integer) {
                return Some(Statement::Integer(self.name_list()?));
            }
            if self.take(Token::Finish) {
                return self.finish();
            }
            if self.take(Token::EndOfProgram) {
                return Some(Statement::EndOfProgram);
            }
        }
        // "Any number of `label:` may stand before an instruction or alone"
        if !labels.is_empty() && self.rest.is_empty() {
            return Some(Statement::Labelled(labels, None));
        }
        let instruction = self.instruction()?;
        Some(Statement::Labelled(labels, Some(instruction)))
    }

    fn labels(&mut self) -> &'t [Token] {
        let tokens = self.rest;
        while let [Token::Decimal(_), Token::Colon, rest @ ..] = self.rest {
            self.rest = rest;
        }
        &tokens[..tokens.len() - self.rest.len()]
    }

    /// "%INTEGER <NAME>, <NAME>, <NAME>, . . ."
    fn name_list(&mut self) -> Option<&'t [Token]> {
        let tokens = self.rest;
        self.name()?;
        while self.take(Token::Comma) {
            self.name()?;
        }
        Some(&tokens[..tokens.len() - self.rest.len()])
    }

    /// "`%FINISH`, and `%FINISH %ELSE %START`"
    fn finish(&mut self) -> Option<Statement<'t>> {
        if !self.take(Token::Else) {
            return Some(Statement::Finish);
        }
        self.take(Token::Start)
            .then_some(Statement::FinishElseStart)
    }

    /// A simple instruction, or an IF with its condition and what stands behind `%THEN`.
    fn instruction(&mut self) -> Option<Instruction> {
        if !self.take(Token::If) {
            return Some(Instruction::Simple(self.simple()?));
        }
        self.condition()?;
        if !self.take(Token::Then) {
            return None;
        }
        Some(Instruction::If(self.parts()?))
    }

    /// A group has no lone u for its other part: "Any other mixture is 7."
    fn parts(&mut self) -> Option<Parts> {
        if self.take(Token::Start) {
            return Some(Parts::Group);
        }
        let then = self.simple()?;
        let otherwise = match self.take(Token::Else) {
            true => Some(self.simple()?),
            false => None,
        };
        Some(Parts::Simple(then, otherwise))
    }

    /// "`name = expr`, `SEND(expr)`, `->label`"
    fn simple(&mut self) -> Option<Simple> {
        if self.take(Token::Arrow) {
            return Some(Simple::Jump(self.decimal()?));
        }
        let name = self.name()?;
        if self.take(Token::Relation(Relation::Equal)) {
            return Some(Simple::Assignment(name, self.expression()?));
        }
        // only SEND takes brackets
        if name.letters(self.cells) == b"SEND" && self.take(Token::Open) {
            let value = self.expression()?;
            return self.take(Token::Close).then_some(Simple::Send(value));
        }
        None
    }

    fn relation(&mut self) -> Option<Relation> {
        let (Token::Relation(relation), rest) = self.rest.split_first()? else {
            return None;
        };
        self.rest = rest;
        Some(*relation)
    }

    /// "An expression may begin with one `+`, `-` or `\`, also inside brackets, nowhere else."
    fn expression(&mut self) -> Option<Place> {
        let first = if self.take(Token::Not) {
            let operand = self.operand()?;
            self.put(Node::Unary(Sign::Not, operand))
        } else if self.take(Token::Operator(Operator::Sub)) {
            // "A leading minus has the lowest level": what binds closer belongs to its operand
            let operand = self.operand()?;
            let operand = self.operations(operand, LOWEST + 1)?;
            self.put(Node::Unary(Sign::Neg, operand))
        } else {
            // "a leading plus left out"
            self.take(Token::Operator(Operator::Add));
            self.operand()?
        };
        self.operations(first, LOWEST)
    }

    /// Goes on from a left operand with operators of at least some level. "Equal levels go left to
    /// right": the right operand takes only operators of a higher level.
    fn operations(&mut self, left: Place, least: u32) -> Option<Place> {
        let mut left = left;
        while let Some(operator) = self.take_operator(least) {
            let right = self.operand()?;
            let right = self.operations(right, level(operator) + 1)?;
            left = self.put(Node::Binary(operator, left, right));
        }
        Some(left)
    }

    fn take_operator(&mut self, least: u32) -> Option<Operator> {
        match self.rest.split_first() {
            Some((Token::Operator(operator), rest)) if level(*operator) >= least => {
                self.rest = rest;
                Some(*operator)
            }
            _ => None,
        }
    }

    fn operand(&mut self) -> Option<Place> {
        let (first, rest) = self.rest.split_first()?;
        self.rest = rest;
        let node = match first {
            Token::Open => {
                let inner = self.expression()?;
                return self.take(Token::Close).then_some(inner);
            }
            Token::Name(name) => Node::Name(*name),
            Token::Decimal(value) | Token::Quoted(value) => Node::Constant(*value),
            _ => return None,
        };
        Some(self.put(node))
    }

    /// Adds a node, and gives its place.
    fn put(&mut self, node: Node) -> Place {
        self.nodes.push(node);
        self.nodes.len() as Place - 1
    }

    fn name(&mut self) -> Option<Name> {
        let (Token::Name(name), rest) = self.rest.split_first()? else {
            return None;
        };
        self.rest = rest;
        Some(*name)
    }

    fn decimal(&mut self) -> Option<u32> {
        let (Token::Decimal(value), rest) = self.rest.split_first()? else {
            return None;
        };
        self.rest = rest;
        Some(*value)
    }

    /// Takes the next token if it is this one.
    fn take(&mut self, token: Token) -> bool {
        match self.rest.split_first() {
            Some((next, rest)) if *next == token => {
                self.rest = rest;
                true
            }
            _ => false,
        }
    }
}
