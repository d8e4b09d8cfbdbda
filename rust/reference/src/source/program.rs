//! The statements of a program in order: names, labels and limits.

use super::grammar::{self, Instruction, Lists, Node, Simple, Statement};
use super::tables::{Labels, Variables};
use super::tokens::{Name, Token};
use super::{refuse, GROUP_MISUSED, LABEL_MISUSED, NAME_MISUSED, NO_SUCH_FORM, OVER_LIMIT};
use crate::compact::{self, Compact, Line, Piece, Place};
use crate::condition::Comparison;
use crate::limits::{GREATEST_LABEL, MOST_COMPARISONS, MOST_LABELS, MOST_LEVELS};
use crate::limits::{MOST_ORDERS, MOST_TEMPORARIES, MOST_VARIABLES};
use crate::sheet;
use crate::Refusal;

/// A label that leads to this number and a level waits for the end of that level's IF.
const WAITING: u32 = 1 << 31;

/// How far a program has come.
#[derive(Clone, Copy, PartialEq, Eq)]
enum Part {
    Nothing,
    Declarations,
    Instructions,
}

/// A program as far as its statements have been taken.
pub struct Program {
    part: Part,
    variables: Variables,
    labels: Labels,
    /// The statements of the jumps, in order of the text.
    jumps: Vec<u32>,
    /// Those that are open, the innermost last.
    groups: Vec<Group>,
    /// Each GOTO has its label in place of an instruction's number.
    sheet: Compact,
    /// How many lines of the sheet are instructions.
    instructions: u32,
    /// Those of the instructions, without STOP.
    orders: u32,
}

/// A group that is open.
struct Group {
    /// The statement with its `%START`.
    start: u32,
    /// The instructions before the group.
    before: u32,
    is_second: bool,
}

/// What a statement's names, nodes and pieces are looked up in.
#[derive(Clone, Copy)]
pub struct Parts<'s> {
    pub cells: &'s [u8],
    pub lists: &'s Lists,
}

impl Program {
    pub fn new() -> Program {
        Program {
            part: Part::Nothing,
            variables: Variables::default(),
            labels: Labels::default(),
            jumps: Vec::new(),
            groups: Vec::with_capacity(MOST_LEVELS),
            sheet: Compact::new(0),
            instructions: 0,
            orders: 0,
        }
    }

    /// Takes a statement by its number, from 1. Gives whether it is `%ENDOFPROGRAM`, or the number
    /// of its refusal.
    #[inline]
    pub fn take(&mut self, statement: &Statement, parts: Parts, number: u32) -> Result<bool, u32> {
        self.part = self.next_part(statement).ok_or(NO_SUCH_FORM)?;
        match statement {
            Statement::Begin => {}
            Statement::Integer(names) => self.declare(names, parts.cells)?,
            Statement::Labelled(labels, instruction) => {
                let next = self.instructions + 1;
                let first = self.sheet.lines.len();
                if let Some(instruction) = instruction {
                    self.instruction(instruction, parts)?;
                }
                self.set_labels(labels, next)?;
                self.hold(first, number)?;
                if is_group(instruction) {
                    self.open(number, false);
                }
            }
            Statement::Finish => self.finish()?,
            Statement::FinishElseStart => self.finish_else_start(number)?,
            Statement::EndOfProgram => return Ok(true),
        }
        Ok(false)
    }

    /// "`%BEGIN` first; then any number of `%INTEGER` name lists; then any number of instructions;
    /// then `%ENDOFPROGRAM`." Labels "end the declarations".
    fn next_part(&self, statement: &Statement) -> Option<Part> {
        match (self.part, statement) {
            (Part::Nothing, Statement::Begin) => Some(Part::Declarations),
            (Part::Nothing, _) | (_, Statement::Begin) => None,
            (Part::Declarations, Statement::Integer(_)) => Some(Part::Declarations),
            (Part::Instructions, Statement::Integer(_)) => None,
            _ => Some(Part::Instructions),
        }
    }

    /// 8 comes before 11 in a statement, so all names are looked at before they are counted.
    fn declare(&mut self, names: &[Token], cells: &[u8]) -> Result<(), u32> {
        for token in names {
            let Token::Name(name) = token else { continue };
            let name = name.letters(cells);
            // "SEND cannot be declared or used as a variable."
            if name == b"SEND" || !self.variables.declare(name) {
                return Err(NAME_MISUSED);
            }
        }
        if self.variables.count() > MOST_VARIABLES {
            return Err(OVER_LIMIT);
        }
        Ok(())
    }

    /// The word of a variable. SEND is never declared.
    fn word(&self, name: Name, cells: &[u8]) -> Result<u32, u32> {
        self.variables.word(name.letters(cells)).ok_or(NAME_MISUSED)
    }

    /// Adds the statement's nodes behind those of the program, with words for names.
    fn add_nodes(&mut self, parts: Parts) -> Result<(), u32> {
        let first = self.sheet.nodes.len() as Place;
        for node in &parts.lists.nodes {
            let node = match *node {
                Node::Name(name) => compact::Node::Word(self.word(name, parts.cells)?),
                Node::Constant(value) => compact::Node::Constant(value),
                Node::Unary(sign, operand) => compact::Node::Unary(sign, first + operand),
                Node::Binary(operator, left, right) => {
                    compact::Node::Binary(operator, first + left, first + right)
                }
            };
            self.sheet.nodes.push(node);
        }
        Ok(())
    }

    /// Adds the statement's condition, whose nodes stand behind the first of them.
    fn add_condition(&mut self, first: Place, parts: Parts) {
        let place = self.sheet.pieces.len();
        let pieces = parts.lists.pieces.iter().map(|piece| match piece {
            Piece::Comparison(only) => Piece::Comparison(Comparison {
                relation: only.relation,
                left: first + only.left,
                right: first + only.right,
            }),
            run => *run,
        });
        self.sheet.pieces.extend(pieces);
        let condition = self.sheet.pieces_from(place);
        self.put(Line::If(condition));
    }

    /// Adds the lines of an instruction: of an IF with groups, only its own.
    fn instruction(&mut self, instruction: &Instruction, parts: Parts) -> Result<(), u32> {
        let first = self.sheet.nodes.len() as Place;
        self.add_nodes(parts)?;
        let simples = match instruction {
            Instruction::Simple(only) => return self.simple(only, first, parts.cells),
            Instruction::If(simples) => simples,
        };
        self.add_condition(first, parts);
        let grammar::Parts::Simple(then, otherwise) = simples else {
            return Ok(());
        };
        self.simple(then, first, parts.cells)?;
        if let Some(otherwise) = otherwise {
            self.put(Line::Else);
            self.simple(otherwise, first, parts.cells)?;
        }
        self.put(Line::Finish);
        Ok(())
    }

    /// Adds the line of a simple instruction, whose nodes stand behind the first.
    fn simple(&mut self, simple: &Simple, first: Place, cells: &[u8]) -> Result<(), u32> {
        let simple = match *simple {
            Simple::Assignment(name, value) => {
                sheet::Simple::Set(self.word(name, cells)?, first + value)
            }
            Simple::Send(value) => sheet::Simple::Send(first + value),
            Simple::Jump(label) => sheet::Simple::Goto(label),
        };
        self.put(Line::Simple(simple));
        Ok(())
    }

    fn put(&mut self, line: Line) {
        self.instructions += u32::from(line.is_instruction());
        self.sheet.lines.push(line);
    }

    /// "label 0 or over" the greatest, "set twice"
    fn set_labels(&mut self, labels: &[Token], next: u32) -> Result<(), u32> {
        for token in labels {
            let Token::Decimal(label) = *token else {
                continue;
            };
            if !is_label(label) || !self.labels.set(label, next) {
                return Err(LABEL_MISUSED);
            }
        }
        Ok(())
    }

    /// Holds the lines from a place on: their jumps to being labels, and the set labels, the levels,
    /// the comparisons, the temporaries and the orders to their limits.
    fn hold(&mut self, first: usize, number: u32) -> Result<(), u32> {
        let mut temporaries = 0;
        let mut levels = 0;
        let mut comparisons = 0;
        for place in first..self.sheet.lines.len() {
            let line = self.sheet.lines[place];
            if let Line::Simple(sheet::Simple::Goto(label)) = line {
                if !is_label(label) {
                    return Err(LABEL_MISUSED);
                }
                self.jumps.push(number);
            }
            if let Line::If(condition) = line {
                levels = self.groups.len() + 1;
                comparisons = self.sheet.pieces(condition)[0].comparisons() as usize;
            }
            let count = self.sheet.count(&line);
            self.orders += count.orders;
            temporaries = temporaries.max(count.temporaries);
        }
        // "Orders are over at the first statement where those so far and STOP pass" the most
        if self.labels.count() > MOST_LABELS
            || levels > MOST_LEVELS
            || comparisons > MOST_COMPARISONS
            || temporaries > MOST_TEMPORARIES
            || self.orders as usize + 1 > MOST_ORDERS
        {
            return Err(OVER_LIMIT);
        }
        Ok(())
    }

    fn open(&mut self, start: u32, is_second: bool) {
        self.groups.push(Group {
            start,
            before: self.instructions,
            is_second,
        });
    }

    /// Takes the innermost group away. "A group with no instruction, labels or none, is refusal 7",
    /// and so is a third part.
    fn close(&mut self, has_else: bool) -> Result<Group, u32> {
        let group = self.groups.pop().ok_or(GROUP_MISUSED)?;
        let is_empty = group.before == self.instructions;
        match is_empty || (group.is_second && has_else) {
            true => Err(NO_SUCH_FORM),
            false => Ok(group),
        }
    }

    /// What waited for the end of this IF leads to the next instruction, as do the labels behind its
    /// last one.
    fn finish(&mut self) -> Result<(), u32> {
        if self.close(false)?.is_second {
            let waiting = WAITING + self.groups.len() as u32;
            self.labels.lead_on(waiting, self.instructions + 1);
        }
        self.put(Line::Finish);
        Ok(())
    }

    /// "A jump to the place after a group's last instruction means ... the instruction after the
    /// whole IF": the labels there do not lead to the second part.
    fn finish_else_start(&mut self, number: u32) -> Result<(), u32> {
        self.close(true)?;
        let waiting = WAITING + self.groups.len() as u32;
        self.labels.lead_on(self.instructions + 1, waiting);
        let first = self.sheet.lines.len();
        self.put(Line::Else);
        self.open(number, true);
        self.hold(first, number)
    }

    /// The sheet at `%ENDOFPROGRAM`, or the refusal at the first `%START` whose group is open, or at
    /// the first jump whose label is never set.
    pub fn sheet(self) -> Result<Compact, Refusal> {
        if let Some(group) = self.groups.first() {
            return refuse(GROUP_MISUSED, group.start);
        }
        let mut sheet = self.sheet;
        sheet.variables = self.variables.count();
        let targets = sheet.lines.iter_mut().filter_map(Line::target);
        for (target, number) in targets.zip(self.jumps) {
            match self.labels.instruction(*target) {
                Some(instruction) => *target = instruction,
                None => return refuse(LABEL_MISUSED, number),
            }
        }
        Ok(sheet)
    }
}

/// Whether an instruction is an IF with groups.
fn is_group(instruction: &Option<Instruction>) -> bool {
    matches!(instruction, Some(Instruction::If(grammar::Parts::Group)))
}

fn is_label(number: u32) -> bool {
    (1..=GREATEST_LABEL).contains(&number)
}
