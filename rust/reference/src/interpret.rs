//! The meaning of a program, laid down on its instructions and the word arithmetic. No order
//! appears in it: the counts are those of document 01's rules for each form.

mod conditions;

use crate::rests::Rests;
use crate::sheet::{closings, Expression, Line, Operator, Sheet, Sign, Simple};

/// How a program ends, with document 01's numbers of faults and `skimp_run`'s number of a stop.
#[derive(Clone, Copy, Debug, PartialEq, Eq)]
pub enum Ending {
    ZeroDivisor = 1,
    NegativeExponent = 2,
    ShiftCount = 3,
    OutputFull = 4,
    Stopped = 20,
}

/// A program after some of its instructions.
pub struct Meaning<'a> {
    pub sheet: &'a Sheet,
    /// The line that closes the part after each IF and ELSE.
    closings: Vec<usize>,
    /// The line of each instruction, and the end.
    instructions: Vec<usize>,
    /// How many numbers the output has room for.
    room: usize,
    /// The line of the instruction to be done next, from 0, or of the one that faulted. One past the
    /// last is the end.
    pub next: usize,
    pub variables: Vec<i32>,
    pub sent: Vec<i32>,
    /// The orders of the path so far, and those before the last instruction. Of an IF the latter are
    /// those before the last comparison that was tried.
    pub count: u64,
    pub begun: u64,
    /// The number of that comparison in its IF, from 0; of another instruction, 0.
    pub tried: usize,
    pub ending: Option<Ending>,
    /// How often each operator gave a value.
    pub operations: [usize; 10],
    /// What its divisions left.
    pub rests: Rests,
    /// How often each relation failed and held.
    pub comparisons: [[usize; 2]; 6],
    /// How often a condition of two comparisons or more failed and held, with some of them left out
    /// and with all of them tried.
    pub joined: [[usize; 2]; 2],
    /// How often the way from one instruction to the next led over one SKIP, two, or more.
    pub skips: [usize; 3],
}

impl<'a> Meaning<'a> {
    /// "Words start at 0."
    pub fn new(sheet: &'a Sheet, room: usize) -> Meaning<'a> {
        let places = 0..sheet.lines.len();
        let instructions = places.filter(|&place| sheet.lines[place].is_instruction());
        Meaning {
            sheet,
            closings: closings(&sheet.lines),
            instructions: instructions.chain([sheet.lines.len()]).collect(),
            room,
            next: 0,
            variables: vec![0; sheet.variables as usize],
            sent: Vec::new(),
            count: 0,
            begun: 0,
            tried: 0,
            ending: None,
            operations: [0; 10],
            rests: Rests::default(),
            comparisons: [[0; 2]; 6],
            joined: [[0; 2]; 2],
            skips: [0; 3],
        }
    }

    /// Does one more instruction. The end, where the program stops, counts as one.
    pub fn advance(&mut self) {
        if self.ending.is_some() {
            return;
        }
        (self.begun, self.tried) = (self.count, 0);
        let Some(line) = self.sheet.lines.get(self.next) else {
            self.count += 1;
            self.ending = Some(Ending::Stopped);
            return;
        };
        if let Err(fault) = self.instruction(line) {
            self.ending = Some(fault);
        }
    }

    fn instruction(&mut self, line: &Line) -> Result<(), Ending> {
        let behind = self.next + 1;
        match line {
            Line::Simple(Simple::Goto(instruction)) => {
                self.count += 1;
                self.next = self.instructions[*instruction as usize - 1];
            }
            Line::Simple(simple) => {
                self.simple(simple)?;
                self.go_on(behind);
            }
            Line::If(condition) => match self.condition(condition)? {
                true => self.next = behind,
                // a second part begins behind its ELSE, what follows the IF behind its FINISH
                false => self.go_on(self.closings[self.next] + 1),
            },
            Line::Else | Line::Finish => unreachable!("no instruction"),
        }
        Ok(())
    }

    /// Goes on from a line to the next instruction or the end. "A SKIP counts with the instruction
    /// done just before it": where a first part ends before an ELSE, the way leads over the second.
    fn go_on(&mut self, line: usize) {
        let mut place = line;
        let mut skips = 0;
        loop {
            place = match self.sheet.lines.get(place) {
                Some(Line::Else) => {
                    skips += 1;
                    self.closings[place] + 1
                }
                Some(Line::Finish) => place + 1,
                _ => break,
            };
        }
        self.next = place;
        self.count += skips;
        if skips > 0 {
            self.skips[skips.min(3) as usize - 1] += 1;
        }
    }

    fn simple(&mut self, simple: &Simple) -> Result<(), Ending> {
        match simple {
            Simple::Set(word, value) => {
                let value = self.value(value)?;
                self.variables[*word as usize - 2] = value;
            }
            Simple::Send(value) => {
                let value = self.value(value)?;
                if self.sent.len() >= self.room {
                    return Err(Ending::OutputFull);
                }
                self.sent.push(value);
            }
            Simple::Goto(_) => unreachable!("leads elsewhere"),
        }
        self.count += 1;
        Ok(())
    }

    fn value(&mut self, expression: &Expression) -> Result<i32, Ending> {
        let value = match expression {
            Expression::Word(_) | Expression::Constant(_) => self.plain(expression),
            Expression::Unary(sign, operand) => {
                let operand = self.value(operand)?;
                match sign {
                    Sign::Neg => operand.wrapping_neg(),
                    Sign::Not => !operand,
                }
            }
            Expression::Binary(operator, left, right) => {
                let (left, right) = self.operands(left, right)?;
                let value = combined(*operator, left, right)?;
                self.operations[*operator as usize] += 1;
                if *operator == Operator::Div {
                    self.rests.add(left, right);
                }
                value
            }
        };
        self.count += 1;
        Ok(value)
    }

    /// "Operands are worked out left first." What is not plain costs three orders besides its own:
    /// the left is put away before it, then it is put away and the left fetched.
    fn operands(&mut self, left: &Expression, right: &Expression) -> Result<(i32, i32), Ending> {
        let left = self.value(left)?;
        if right.is_plain() {
            return Ok((left, self.plain(right)));
        }
        self.count += 1;
        let right = self.value(right)?;
        self.count += 2;
        Ok((left, right))
    }

    fn plain(&self, expression: &Expression) -> i32 {
        match expression {
            Expression::Word(word) => self.variables[*word as usize - 2],
            Expression::Constant(constant) => *constant as i32,
            _ => unreachable!("not plain"),
        }
    }
}

/// "Sum, difference, product, negation and power wrap. Shifts are logical."
fn combined(operator: Operator, left: i32, right: i32) -> Result<i32, Ending> {
    let count = u32::try_from(right);
    let shift = count.ok().filter(|&count| count < 32);
    let shift = shift.ok_or(Ending::ShiftCount);
    Ok(match operator {
        Operator::Add => left.wrapping_add(right),
        Operator::Sub => left.wrapping_sub(right),
        Operator::Mul => left.wrapping_mul(right),
        Operator::Div if right == 0 => return Err(Ending::ZeroDivisor),
        Operator::Div => nearest(left, right),
        Operator::Pow => left.wrapping_pow(count.map_err(|_| Ending::NegativeExponent)?),
        Operator::Shl => ((left as u32) << shift?) as i32,
        Operator::Shr => ((left as u32) >> shift?) as i32,
        Operator::And => left & right,
        Operator::Or => left | right,
        Operator::Xor => left ^ right,
    })
}

/// Request L3's quotient, "the nearest whole number, halves away from zero": of the two whole numbers
/// about it the one whose product lies nearer to the dividend, or as near and farther from zero. The
/// least word divided by -1 wraps.
fn nearest(dividend: i32, divisor: i32) -> i32 {
    let (dividend, divisor) = (i64::from(dividend), i64::from(divisor));
    let inner = dividend / divisor;
    let outer = inner + dividend.signum() * divisor.signum();
    let distance = |quotient: i64| (dividend - quotient * divisor).abs();
    if distance(outer) <= distance(inner) {
        outer as i32
    } else {
        inner as i32
    }
}
