//! Random sheets, of exactly so many orders.

pub mod conditions;

use crate::condition::Condition;
use crate::limits::{MOST_LEVELS, MOST_NUMBER, MOST_ORDERS, MOST_TEMPORARIES, MOST_VARIABLES};
use crate::object::{Order, STOP};
use crate::random::Random;
use crate::sheet::{count, Expression, Line, Operator, Relation, Sheet, Sign, Simple};
use crate::sheet::{OPERATORS, SIGNS};
use crate::translate::without_limits;
use conditions::LEAST;

/// What a random sheet is to be like.
#[derive(Clone, Copy)]
pub struct Plan {
    pub variables: u32,
    /// How many temporaries its expressions may use.
    pub temporaries: u32,
    /// How many IFs may stand in each other.
    pub levels: usize,
    /// Most of its instructions stand in as many parts as they may.
    pub deep: bool,
    /// Most of its IFs have many comparisons and few orders in their parts.
    pub joined: bool,
    /// Few operations of it may fault.
    pub calm: bool,
    /// No GOTO leads back, so that it ends.
    pub forward: bool,
    /// Its instructions have few orders and its GOTOs few targets, so that a source can have it.
    pub short: bool,
    /// Its last instructions count up a variable that no other sets, and lead back to the first
    /// until so many rounds are done. They have `LOOP` orders.
    pub rounds: Option<u32>,
}

/// The orders of the instructions that make a loop.
const LOOP: usize = 7;
/// The most orders of an outermost instruction that is short, with those of its parts.
const SHORT: usize = 80;
/// As many targets at most have the GOTOs of a sheet of short instructions, which leaves labels for
/// others.
const FEW: u32 = 48;

/// Where an expression has its operands that are not plain.
#[derive(Clone, Copy)]
enum Nesting {
    /// In the left operand only: a chain without temporaries.
    Left,
    /// In the right operand, as long as there are temporaries.
    Right,
    Both,
}

impl Plan {
    pub fn random(random: &mut Random) -> Plan {
        let most = MOST_VARIABLES as usize;
        let variables = match random.below(8) {
            0 => random.pick(&[0, 1, most - 1, most]),
            // one below half of the most, at it and one above it
            1 => random.between(most / 2 - 1, most / 2 + 1),
            2 => random.between(0, most),
            _ => random.between(1, 5),
        };
        Plan {
            variables: variables as u32,
            temporaries: match random.below(2) {
                0 => random.below(MOST_TEMPORARIES as usize) as u32,
                _ => MOST_TEMPORARIES,
            },
            levels: match random.below(4) {
                0 => random.between(0, MOST_LEVELS),
                _ => MOST_LEVELS,
            },
            deep: random.once_in(5),
            joined: random.once_in(5),
            calm: !random.once_in(4),
            forward: random.once_in(2),
            short: false,
            rounds: random.once_in(3).then(|| random.between(1, 20) as u32),
        }
    }

    /// A sheet of a few orders.
    pub fn small_sheet(random: &mut Random) -> Sheet {
        let orders = random.between(1, 40);
        Plan::random(random).sheet(random, orders)
    }

    /// A sheet of more orders, most of its instructions in many parts.
    pub fn deep_sheet(random: &mut Random) -> Sheet {
        let orders = random.between(30, 90);
        let plan = Plan {
            deep: true,
            ..Plan::random(random)
        };
        plan.sheet(random, orders)
    }

    /// A sheet of up to the most orders, often of exactly as many.
    pub fn large_sheet(random: &mut Random) -> Sheet {
        let orders = large_count(random);
        Plan::random(random).sheet(random, orders)
    }

    /// The same of short instructions.
    pub fn large_program(random: &mut Random) -> Sheet {
        let orders = large_count(random);
        let plan = Plan {
            short: true,
            ..Plan::random(random)
        };
        plan.sheet(random, orders)
    }

    /// A random sheet whose V, T and N are exactly these. T is not 1, since a binary that needs
    /// temporaries needs two. With `one`, its only instruction has all orders but STOP.
    ///
    /// # Panics
    ///
    /// If there is none among many sheets with this V and N.
    pub fn exact_sheet(random: &mut Random, size: [u32; 3], one: bool) -> Sheet {
        let [variables, temporaries, orders] = size;
        for _ in 0..10_000 {
            let plan = Plan {
                variables,
                temporaries,
                rounds: None,
                ..Plan::random(random)
            };
            let first = random.between(orders as usize / 2, orders as usize - 2);
            let sizes = [first, orders as usize - 1 - first];
            let sheet = match one {
                true => plan.sheet_of(random, &[orders as usize - 1]),
                false => plan.sheet_of(random, &sizes),
            };
            if without_limits(&sheet).temporaries == temporaries {
                return sheet;
            }
        }
        panic!("no sheet with V, T and N {size:?}");
    }

    /// A random sheet whose translation has `orders` orders, STOP included.
    pub fn sheet(self, random: &mut Random, orders: usize) -> Sheet {
        let mut left = orders - 1;
        let plan = match self.rounds {
            Some(_) if left >= LOOP && self.variables > 0 => self,
            _ => Plan {
                rounds: None,
                ..self
            },
        };
        if plan.rounds.is_some() {
            left -= LOOP;
        }
        let most = if self.short { SHORT } else { MOST_ORDERS };
        let mut sizes = Vec::new();
        while left > 0 {
            let largest = left.min(most);
            let size = match random.below(64) {
                8.. if self.deep => random.between(largest.div_ceil(2), largest),
                8..=55 if self.joined => random.between(8, SHORT),
                0..=7 => 1,
                8..=55 => random.between(2, 14),
                56..=62 => random.between(2, 60),
                _ => random.between(2, most),
            };
            sizes.push(size.min(left));
            left -= size.min(left);
        }
        plan.sheet_of(random, &sizes)
    }

    /// A random sheet with an outermost instruction for each size, of as many orders with its parts,
    /// and the loop if there is to be one.
    pub fn sheet_of(self, random: &mut Random, sizes: &[usize]) -> Sheet {
        let mut maker = Maker {
            random,
            plan: self,
            words: self.variables - u32::from(self.rounds.is_some()),
            lines: Vec::new(),
            nesting: Nesting::Both,
        };
        for &size in sizes {
            maker.instruction(size, 0);
        }
        maker.lead_gotos();
        let mut lines = maker.lines;
        if let Some(rounds) = self.rounds {
            let counter = || Box::new(Expression::Word(self.variables + 1));
            let one = Box::new(Expression::Constant(1));
            let sum = Expression::Binary(Operator::Add, counter(), one);
            lines.push(Line::Simple(Simple::Set(self.variables + 1, sum)));
            let rounds = Expression::Constant(rounds);
            let condition = Condition::comparison(Relation::Less, *counter(), rounds);
            lines.push(Line::If(condition));
            lines.extend([Line::Simple(Simple::Goto(1)), Line::Finish]);
        }
        Sheet {
            variables: self.variables,
            lines,
        }
    }
}

struct Maker<'r> {
    random: &'r mut Random,
    plan: Plan,
    /// How many variables may be named.
    words: u32,
    /// Those of the sheet so far.
    lines: Vec<Line>,
    nesting: Nesting,
}

impl Maker<'_> {
    /// Puts an instruction of `orders` orders, those of its parts included, in so many IFs.
    fn instruction(&mut self, orders: usize, level: usize) {
        let wants = self.plan.deep && !self.random.once_in(16) || !self.random.once_in(3);
        if orders < LEAST + 1 || level >= self.plan.levels || !wants {
            let simple = self.simple(orders);
            return self.lines.push(Line::Simple(simple));
        }
        let has_else =
            orders >= LEAST + 3 && !self.random.once_in(if self.plan.deep { 4 } else { 2 });
        // with ELSE the SKIP
        let left = orders - usize::from(has_else);
        let (first, second) = self.parts(left - LEAST, has_else);
        let condition = self.condition(left - first - second);
        self.lines.push(Line::If(condition));
        self.part(first, level + 1);
        if has_else {
            self.lines.push(Line::Else);
            self.part(second, level + 1);
        }
        self.lines.push(Line::Finish);
    }

    /// The orders of the parts of an IF, of `most` at most; of a second part there may be none.
    fn parts(&mut self, most: usize, has_else: bool) -> (usize, usize) {
        if self.plan.deep && !self.random.once_in(8) {
            return match (has_else, self.random.once_in(3)) {
                (false, _) => (most, 0),
                (true, false) => (most - 1, 1),
                (true, true) => (1, most - 1),
            };
        }
        let most = match self.plan.joined {
            true => most.min(4),
            false => most,
        };
        let first = self.size(most - usize::from(has_else));
        match has_else {
            true => (first, self.size(most - first)),
            false => (first, 0),
        }
    }

    /// From 1 to `most`, mostly few.
    fn size(&mut self, most: usize) -> usize {
        match self.random.below(4) {
            0 => 1,
            1 => self.random.between(1, most),
            _ => self.random.between(1, most.min(9)),
        }
    }

    /// Puts one instruction or several, of `orders` orders together.
    fn part(&mut self, orders: usize, level: usize) {
        let way = if self.plan.deep {
            3
        } else {
            self.random.below(3)
        };
        let mut left = orders;
        match way {
            0 => {
                let simple = self.simple(orders);
                return self.lines.push(Line::Simple(simple));
            }
            1 => return self.instruction(orders, level),
            _ => {}
        }
        while left > 1 && (way == 2 || self.random.once_in(6)) {
            let size = self.size(left - 1);
            self.instruction(size, level);
            left -= size;
        }
        // a small one may stand behind a large one, too
        let behind = usize::from(left > 4 && self.random.once_in(6));
        self.instruction(left - behind, level);
        if behind > 0 {
            self.instruction(behind, level);
        }
    }

    /// Lets the GOTOs lead to instructions of the whole sheet.
    fn lead_gotos(&mut self) {
        let in_loop = if self.plan.rounds.is_some() { 3 } else { 0 };
        let end = count(&self.lines) + in_loop + 1;
        let mut number = 0;
        for place in 0..self.lines.len() {
            number += u32::from(self.lines[place].is_instruction());
            let other = self.target(number, end);
            if let Some(target) = self.lines[place].target() {
                *target = other;
            }
        }
    }

    fn simple(&mut self, orders: usize) -> Simple {
        if orders == 1 {
            // where it leads is chosen once all instructions are there
            return Simple::Goto(1);
        }
        self.choose_nesting();
        let value = self.expression(orders - 1, self.plan.temporaries);
        if self.words > 0 && !self.random.once_in(4) {
            Simple::Set(self.word(), value)
        } else {
            Simple::Send(value)
        }
    }

    fn choose_nesting(&mut self) {
        self.nesting = match self.random.below(4) {
            0 => Nesting::Left,
            1 => Nesting::Right,
            _ => Nesting::Both,
        };
    }

    /// Where the GOTO of a number leads: any instruction, or the end.
    fn target(&mut self, number: u32, end: u32) -> u32 {
        let first = if self.plan.forward { number + 1 } else { 1 };
        let target = match self.random.below(6) {
            0 => end,
            1 => first,
            2 => end.min(number + 1),
            _ => self.random.between(first as usize, end as usize) as u32,
        };
        match self.plan.short {
            true => end.min(target.next_multiple_of(end.div_ceil(FEW))),
            false => target,
        }
    }

    /// An expression of `orders` orders that uses at most `room` temporaries.
    fn expression(&mut self, orders: usize, room: u32) -> Expression {
        if orders == 1 {
            return self.plain();
        }
        if self.random.once_in(6) {
            if let Some(division) = self.division(orders, room) {
                return division;
            }
        }
        if self.random.once_in(6) {
            let operand = self.expression(orders - 1, room);
            return Expression::Unary(self.random.pick(&SIGNS).0, Box::new(operand));
        }
        let (left, mut right) = self.operands(orders, room);
        let mut operator = self.random.pick(&OPERATORS).0;
        if self.plan.calm && !self.random.once_in(16) {
            let harmless = match operator {
                Operator::Div => Some(self.random.between(1, 9)),
                Operator::Pow => Some(self.random.below(9)),
                Operator::Shl | Operator::Shr => Some(self.random.below(32)),
                _ => None,
            };
            match harmless {
                Some(number) if right.is_plain() => right = Expression::Constant(number as u32),
                Some(_) => operator = Operator::Sub,
                None => {}
            }
        }
        Expression::Binary(operator, Box::new(left), Box::new(right))
    }

    /// A division of numbers that leaves about half of the divisor, if there is one of `orders`
    /// orders: each minus takes one, and that of a divisor temporaries too.
    fn division(&mut self, orders: usize, room: u32) -> Option<Expression> {
        let signs = match orders {
            2 => [false, false],
            3 => [true, false],
            7 if room >= 2 => [false, true],
            8 if room >= 2 => [true, true],
            _ => return None,
        };
        let (dividend, divisor) = self.random.about_half();
        let sizes = [dividend, divisor].map(i32::unsigned_abs);
        if sizes.iter().any(|&size| size > MOST_NUMBER) {
            return None;
        }
        let [left, right] = [0, 1].map(|side| {
            let number = Box::new(Expression::Constant(sizes[side]));
            match signs[side] {
                true => Box::new(Expression::Unary(Sign::Neg, number)),
                false => number,
            }
        });
        Some(Expression::Binary(Operator::Div, left, right))
    }

    /// Two operands which, with the order on them, have `orders` orders.
    fn operands(&mut self, orders: usize, room: u32) -> (Expression, Expression) {
        // two temporaries; the left of one order, the right of two, and four around them
        let may_nest = room >= 2 && orders >= 7;
        let most = orders.saturating_sub(5);
        let right = match self.nesting {
            _ if !may_nest => 1,
            Nesting::Left => 1,
            Nesting::Right => most,
            Nesting::Both if self.random.once_in(3) => 1,
            Nesting::Both => self.random.between(2, most),
        };
        if right == 1 {
            return (self.expression(orders - 1, room), self.plain());
        }
        let left = self.expression(orders - 4 - right, room);
        (left, self.expression(right, room - 1))
    }

    fn plain(&mut self) -> Expression {
        if self.words > 0 && self.random.once_in(2) {
            return Expression::Word(self.word());
        }
        Expression::Constant(match self.random.below(8) {
            0..=3 => self.random.below(10) as u32,
            4..=5 => self.random.below(41) as u32,
            6 => self.random.pattern() & MOST_NUMBER,
            _ => self.random.bits() as u32 & MOST_NUMBER,
        })
    }

    /// A word that the sheet may name.
    fn word(&mut self) -> u32 {
        let last = self.words as usize + 1;
        match self.random.below(4) {
            0 => last as u32,
            1 => self.random.between(2, last) as u32,
            _ => self.random.between(2, last.min(4)) as u32,
        }
    }
}

/// How many orders a large sheet has: up to the most, often as many, or about half as many.
fn large_count(random: &mut Random) -> usize {
    let half = MOST_ORDERS / 2;
    match random.below(8) {
        0 | 1 => random.between(40, MOST_ORDERS),
        2 => random.between(MOST_ORDERS - 3, MOST_ORDERS),
        3 | 4 => random.between(half - 1, half + 1),
        _ => MOST_ORDERS,
    }
}

/// Visits every list of so many of the orders, with STOP behind it.
pub fn every_list(orders: &[Order], length: usize, mut visit: impl FnMut(&[Order])) {
    let mut turns = vec![0; length];
    let mut list = vec![orders[0]; length];
    list.push(STOP);
    loop {
        visit(&list);
        // the next list: the first place that is not at its last order moves on
        let Some(place) = turns.iter().position(|&turn| turn + 1 < orders.len()) else {
            return;
        };
        turns[..place].fill(0);
        list[..place].fill(orders[0]);
        turns[place] += 1;
        list[place] = orders[turns[place]];
    }
}
