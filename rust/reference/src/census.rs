//! What the sheets of a test have, so that it can say what it covered.

mod conditions;

use crate::condition::Condition;
use crate::sheet::{closings, depth, Expression, Line, Sheet, Simple};
use crate::sheet::{OPERATORS, RELATIONS, SIGNS};
use crate::translate::Translation;
use conditions::Conditions;

#[derive(Default)]
pub struct Census {
    pub sheets: usize,
    signs: [usize; 2],
    /// For each operator, with a plain right operand and with another.
    operators: [[usize; 2]; 10],
    /// The same for each relation.
    relations: [[usize; 2]; 6],
    pub conditions: Conditions,
    /// SET, SEND and GOTO.
    simples: [usize; 3],
    /// IF with each of `PARTS` as its first part, and none or each of them as its second.
    ifs: [[usize; 6]; 5],
    /// GOTO back, to itself, ahead and to the end.
    targets: [usize; 4],
    /// GOTO within a part, into one, out of one, and out of one into another.
    ways: [usize; 4],
    /// For each T and V, for each number of instructions, and for each depth.
    temporaries: Vec<usize>,
    variables: Vec<usize>,
    instructions: Vec<usize>,
    depths: Vec<usize>,
    /// For each N.
    orders: Vec<usize>,
}

/// What a part may be: an instruction alone, or several.
const PARTS: [&str; 5] = ["SET", "SEND", "GOTO", "IF", "several"];

impl Census {
    /// Counts a sheet and its translation.
    pub fn add(&mut self, sheet: &Sheet, translation: &Translation) {
        self.sheets += 1;
        count(&mut self.temporaries, translation.temporaries as usize);
        count(&mut self.variables, sheet.variables as usize);
        count(&mut self.instructions, sheet.count() as usize);
        count(&mut self.depths, depth(&sheet.lines));
        count(&mut self.orders, translation.orders.len());
        for line in &sheet.lines {
            match line {
                Line::Simple(simple) => self.simple(simple),
                Line::If(condition) => self.condition(condition),
                Line::Else | Line::Finish => {}
            }
        }
        self.add_parts(&sheet.lines);
        self.add_gotos(&sheet.lines);
    }

    fn condition(&mut self, condition: &Condition) {
        self.conditions.add(condition);
        for only in condition.comparisons() {
            let is_other = usize::from(!only.right.is_plain());
            self.relations[only.relation as usize][is_other] += 1;
            self.expression(&only.left);
            self.expression(&only.right);
        }
    }

    fn simple(&mut self, simple: &Simple) {
        match simple {
            Simple::Set(_, value) | Simple::Send(value) => self.expression(value),
            Simple::Goto(_) => {}
        }
        self.simples[kind(simple)] += 1;
    }

    /// Counts the parts of each IF.
    fn add_parts(&mut self, lines: &[Line]) {
        let closings = closings(lines);
        let part = |place: usize| match &lines[place + 1] {
            Line::Simple(simple) if closings[place] == place + 2 => kind(simple),
            Line::If(_) if last_closing(&closings, lines, place + 1) + 1 == closings[place] => 3,
            _ => 4,
        };
        for (place, line) in lines.iter().enumerate() {
            if let Line::If(_) = line {
                let has_else = lines[closings[place]] == Line::Else;
                let second = has_else.then(|| 1 + part(closings[place]));
                self.ifs[part(place)][second.unwrap_or(0)] += 1;
            }
        }
    }

    /// Counts where the GOTOs lead.
    fn add_gotos(&mut self, lines: &[Line]) {
        let around = parts_around(lines);
        let instructions = lines.iter().filter(|line| line.is_instruction());
        for (place, line) in instructions.enumerate() {
            let Line::Simple(Simple::Goto(target)) = line else {
                continue;
            };
            let target = *target as usize - 1;
            let (from, to) = (&around[place], &around[target]);
            let way = match target + 1 == around.len() {
                true => 3,
                false => target.cmp(&place) as i8 + 1,
            };
            self.targets[way as usize] += 1;
            let (into, out) = (!from.starts_with(to), !to.starts_with(from));
            self.ways[usize::from(into) + 2 * usize::from(out)] += 1;
        }
    }

    fn expression(&mut self, expression: &Expression) {
        match expression {
            Expression::Word(_) | Expression::Constant(_) => {}
            Expression::Unary(sign, operand) => {
                self.signs[*sign as usize] += 1;
                self.expression(operand);
            }
            Expression::Binary(operator, left, right) => {
                self.operators[*operator as usize][usize::from(!right.is_plain())] += 1;
                self.expression(left);
                self.expression(right);
            }
        }
    }

    /// Holds every form to having been met `least` times, and each two parts of an IF, and the forms
    /// of joined conditions, to a fifth of that.
    pub fn every_form(&self, source: &str, least: usize) {
        self.conditions.every_form(source, least / 5);
        let met = |form: &str, count: usize| {
            assert!(count >= least, "{source}: {count} times {form}");
        };
        for ((_, name), count) in SIGNS.iter().zip(self.signs) {
            met(name, count);
        }
        for ((_, sign), [plain, other]) in OPERATORS.iter().zip(self.operators) {
            met(&format!("{sign} with a plain right operand"), plain);
            met(&format!("{sign} with another right operand"), other);
        }
        for ((_, sign), [plain, other]) in RELATIONS.iter().zip(self.relations) {
            met(&format!("IF {sign} with a plain right operand"), plain);
            met(&format!("IF {sign} with another right operand"), other);
        }
        let simples = ["SET", "SEND", "GOTO"];
        for (name, count) in simples.iter().zip(self.simples) {
            met(name, count);
        }
        for (first, counts) in PARTS.iter().zip(self.ifs) {
            met(&format!("THEN {first}"), counts[0]);
            for (second, &count) in PARTS.iter().zip(&counts[1..]) {
                met(&format!("THEN {first} ELSE {second}"), 5 * count);
            }
        }
        let ways = ["back", "to itself", "ahead", "to the end"];
        for (way, count) in ways.iter().zip(self.targets) {
            met(&format!("GOTO {way}"), count);
        }
        let ways = ["within a part", "into one", "out of one", "to another"];
        for (way, count) in ways.iter().zip(self.ways) {
            met(&format!("GOTO {way}"), count);
        }
    }

    /// How many sheets have so many IFs in each other.
    pub fn with_depth(&self, depth: usize) -> usize {
        self.depths.get(depth).copied().unwrap_or(0)
    }

    /// Of how many sheets the translation has so many temporaries.
    pub fn with_temporaries(&self, temporaries: usize) -> usize {
        self.temporaries.get(temporaries).copied().unwrap_or(0)
    }

    /// How many sheets have so many variables.
    pub fn with_variables(&self, variables: usize) -> usize {
        self.variables.get(variables).copied().unwrap_or(0)
    }

    /// How many sheets have so many instructions.
    pub fn with_instructions(&self, instructions: usize) -> usize {
        self.instructions.get(instructions).copied().unwrap_or(0)
    }

    /// Of how many sheets the translation has so many orders.
    pub fn with_orders(&self, orders: usize) -> usize {
        self.orders.get(orders).copied().unwrap_or(0)
    }
}

/// The place of a simple instruction's name in `PARTS`.
fn kind(simple: &Simple) -> usize {
    match simple {
        Simple::Set(..) => 0,
        Simple::Send(_) => 1,
        Simple::Goto(_) => 2,
    }
}

/// The FINISH of an IF.
fn last_closing(closings: &[usize], lines: &[Line], place: usize) -> usize {
    let first = closings[place];
    match lines[first] {
        Line::Else => closings[first],
        _ => first,
    }
}

/// For each instruction and for the end, the lines before the parts that it stands in, from outside.
fn parts_around(lines: &[Line]) -> Vec<Vec<usize>> {
    let mut open = Vec::new();
    let mut all = Vec::new();
    for (place, line) in lines.iter().enumerate() {
        if line.is_instruction() {
            all.push(open.clone());
        }
        if let Line::Else | Line::Finish = line {
            open.pop();
        }
        if let Line::If(_) | Line::Else = line {
            open.push(place);
        }
    }
    all.push(Vec::new());
    all
}

fn count(counts: &mut Vec<usize>, number: usize) {
    if counts.len() <= number {
        counts.resize(number + 1, 0);
    }
    counts[number] += 1;
}
