//! A sheet as the tokens of a program, its names, labels and brackets chosen at random.

mod conditions;

use super::spelling::length;
use super::token::Token;
use crate::limits::{GREATEST_LABEL, MOST_CELLS, MOST_LABELS, MOST_VARIABLES};
use crate::object::LINK_WORDS;
use crate::random::Random;
use crate::sheet::OPERATORS;
use crate::sheet::{closings, Expression, Line, Operator, Sheet, Sign, Simple};
use std::collections::BTreeSet;

/// The tokens of each statement.
pub type Statements = Vec<Vec<Token>>;

/// The tokens of a program whose sheet this is. There is none where it needs too many labels or a
/// statement is too long.
pub fn write(random: &mut Random, sheet: &Sheet) -> Option<Statements> {
    let labels = labels(random, sheet)?;
    let names = names(random, sheet.variables as usize);
    let brackets = random.pick(&[1000, 1000, 8, 3]);
    let mut writer = Writer {
        random,
        names,
        unset: labels.clone(),
        labels,
        brackets,
        tokens: Vec::new(),
        statements: vec![vec![Token::Keyword("BEGIN")]],
    };
    writer.declare();
    let groups = Groups::of(&sheet.lines);
    let mut place = 0;
    while place < sheet.lines.len() {
        place = writer.line(&groups, place);
    }
    writer.put_labelled(sheet.count() as usize);
    let mut statements = writer.statements;
    statements.push(vec![Token::Keyword("ENDOFPROGRAM")]);
    // the end mark is a cell, too
    let fits = |statement: &Vec<Token>| length(statement) < MOST_CELLS;
    statements.iter().all(fits).then_some(statements)
}

/// The instructions' numbers that the GOTOs of a sheet lead to.
fn targets(sheet: &Sheet) -> BTreeSet<u32> {
    let target = |line: &Line| match line {
        Line::Simple(Simple::Goto(target)) => Some(*target),
        _ => None,
    };
    sheet.lines.iter().filter_map(target).collect()
}

/// The lines of a sheet, and how its groups lie.
struct Groups<'s> {
    lines: &'s [Line],
    closings: Vec<usize>,
    /// How many instructions stand before each line and before the end.
    before: Vec<usize>,
}

impl Groups<'_> {
    fn of(lines: &[Line]) -> Groups<'_> {
        let mut before = vec![0];
        for line in lines {
            before.push(before[before.len() - 1] + usize::from(line.is_instruction()));
        }
        Groups {
            lines,
            closings: closings(lines),
            before,
        }
    }

    /// The simple instruction that is the whole part behind a line.
    fn lone(&self, place: usize) -> Option<&Simple> {
        match &self.lines[place + 1] {
            Line::Simple(simple) if self.closings[place] == place + 2 => Some(simple),
            _ => None,
        }
    }

    /// How many instructions stand before the one that a jump behind the last of a part leads to:
    /// "the instruction after the whole IF, and so on outwards, or the end".
    fn behind(&self, closing: usize) -> usize {
        let mut place = closing;
        loop {
            place = match self.lines.get(place) {
                Some(Line::Else) => self.closings[place],
                Some(Line::Finish) => place + 1,
                _ => return self.before[place],
            };
        }
    }
}

/// Labels before each instruction and at the end, at least one where a GOTO leads.
fn labels(random: &mut Random, sheet: &Sheet) -> Option<Vec<Vec<u32>>> {
    let targets = targets(sheet);
    let mut spare = MOST_LABELS.checked_sub(targets.len())?;
    spare = match random.below(16) {
        0 => spare,
        1..=3 => random.below(spare.min(8) + 1),
        _ => 0,
    };
    let greatest = GREATEST_LABEL as usize;
    let mut taken = BTreeSet::new();
    let mut fresh = |random: &mut Random| loop {
        let label = match random.below(4) {
            0 => random.between(1, greatest),
            1 => random.pick(&[1, 9, 10, 99, 100, 999, 1000, greatest]),
            _ => random.between(1, 99),
        };
        if taken.insert(label) {
            return label as u32;
        }
    };
    let mut labels = vec![Vec::new(); sheet.count() as usize + 1];
    for target in targets {
        labels[target as usize - 1].push(fresh(random));
    }
    for _ in 0..spare {
        let place = random.below(labels.len());
        labels[place].push(fresh(random));
    }
    Some(labels)
}

/// So many different names, none of them SEND.
pub fn names(random: &mut Random, count: usize) -> Vec<String> {
    let longest = match count > MOST_VARIABLES as usize / 2 {
        true => 3,
        false => random.pick(&[2, 3, 8, 30, 80]),
    };
    let mut names = Vec::new();
    while names.len() < count {
        let name = match random.below(12) {
            0 => random.pick(&ODD_NAMES).to_string(),
            1 | 2 if !names.is_empty() => similar(random, &names),
            _ => name(random, longest),
        };
        if name != "SEND" && !names.contains(&name) {
            names.push(name);
        }
    }
    names
}

/// Names with something of a keyword or of SEND.
const ODD_NAMES: [&str; 12] = [
    "IF", "C", "THEN", "BEGIN", "INTEGER", "ELSE", "SENDS", "SEN", "END", "W2", "K1", "NOT",
];

/// A name that differs from another in its last character only.
fn similar(random: &mut Random, names: &[String]) -> String {
    let mut name = names[random.below(names.len())].clone();
    if name.len() > 1 && random.once_in(2) {
        name.pop();
    }
    name.push(random.pick(&['A', 'Z', '0', '9']));
    name
}

fn name(random: &mut Random, longest: usize) -> String {
    let letters = b"ABCDEFGHIJKLMNOPQRSTUVWXYZ0123456789";
    let first = letters[random.below(26)];
    let mut name = String::from(char::from(first));
    for _ in 1..random.between(1, longest) {
        name.push(char::from(random.pick(letters)));
    }
    name
}

struct Writer<'r> {
    random: &'r mut Random,
    names: Vec<String>,
    /// Those of each instruction and of the end.
    labels: Vec<Vec<u32>>,
    /// Those of them that no statement has yet.
    unset: Vec<Vec<u32>>,
    /// Once in so many times an operand or a condition gets brackets that it does not need.
    brackets: usize,
    /// Those of the statement being written.
    tokens: Vec<Token>,
    statements: Statements,
}

impl Writer<'_> {
    fn put(&mut self, symbol: &'static str) {
        self.tokens.push(Token::Symbol(symbol));
    }

    /// Puts the names in one list or several.
    fn declare(&mut self) {
        let mut lists = Statements::new();
        let longest = self.random.pick(&[1, 5, 60, 60]);
        for name in &self.names {
            let name = Token::Name(name.clone());
            match lists.last_mut() {
                Some(list) if list.len() < 2 * longest && length(list) < 220 => {
                    list.extend([Token::Symbol(","), name]);
                }
                _ => lists.push(vec![Token::Keyword("INTEGER"), name]),
            }
        }
        self.statements.extend(lists);
    }

    /// Puts the labels of an instruction, some of them alone, and the statement that is written
    /// behind them. At the end of the program it has no tokens.
    fn put_labelled(&mut self, instruction: usize) {
        let tokens = std::mem::take(&mut self.tokens);
        let labels = std::mem::take(&mut self.unset[instruction]);
        let mut statement = Vec::new();
        for label in labels {
            statement.extend([Token::Decimal(label), Token::Symbol(":")]);
            if self.random.once_in(4) || length(&statement) + length(&tokens) > 240 {
                self.statements.push(std::mem::take(&mut statement));
            }
        }
        statement.extend(tokens);
        if !statement.is_empty() {
            self.statements.push(statement);
        }
    }

    /// Puts the statements of the line at a place, and gives the place of the next line. An IF may
    /// be written with the lines of its parts.
    fn line(&mut self, groups: &Groups, place: usize) -> usize {
        let instruction = groups.before[place];
        match &groups.lines[place] {
            Line::Simple(simple) => self.simple(simple),
            Line::If(condition) => {
                self.tokens.push(Token::Keyword("IF"));
                self.condition(condition);
                self.tokens.push(Token::Keyword("THEN"));
                let end = self.parts(groups, place);
                self.put_labelled(instruction);
                return end;
            }
            Line::Else => {
                self.set_early(groups, place);
                let words = ["FINISH", "ELSE", "START"].map(Token::Keyword);
                self.statements.push(words.to_vec());
                return place + 1;
            }
            Line::Finish => {
                self.set_early(groups, place);
                self.statements.push(vec![Token::Keyword("FINISH")]);
                return place + 1;
            }
        }
        self.put_labelled(instruction);
        place + 1
    }

    /// Sometimes sets labels behind the last instruction of a part.
    fn set_early(&mut self, groups: &Groups, closing: usize) {
        let unset = &mut self.unset[groups.behind(closing)];
        while !unset.is_empty() && self.random.once_in(2) {
            let label = Token::Decimal(unset.pop().expect("a label"));
            self.statements.push(vec![label, Token::Symbol(":")]);
        }
    }

    /// Puts what stands behind `%THEN`: mostly the parts themselves where they are such that they may
    /// stand there, else `%START`. Gives the place of the next line.
    fn parts(&mut self, groups: &Groups, place: usize) -> usize {
        let closing = groups.closings[place];
        let has_else = groups.lines[closing] == Line::Else;
        let first = groups.lone(place);
        let second = has_else.then(|| groups.lone(closing));
        let inside = groups.before[place] + 1..=groups.before[place] + 1 + usize::from(has_else);
        // a labelled instruction does not stand there
        let is_labelled = inside.into_iter().any(|it| !self.labels[it].is_empty());
        match (first, second) {
            (Some(first), None | Some(Some(_))) if !is_labelled && !self.random.once_in(3) => {
                self.simple(first);
                let Some(Some(second)) = second else {
                    return closing + 1;
                };
                self.tokens.push(Token::Keyword("ELSE"));
                self.simple(second);
                groups.closings[closing] + 1
            }
            _ => {
                self.tokens.push(Token::Keyword("START"));
                place + 1
            }
        }
    }

    fn simple(&mut self, simple: &Simple) {
        match simple {
            Simple::Set(word, value) => {
                self.name(*word);
                self.put("=");
                self.expression(value);
            }
            Simple::Send(value) => {
                self.tokens.push(Token::Name("SEND".to_string()));
                self.put("(");
                self.expression(value);
                self.put(")");
            }
            Simple::Goto(target) => {
                let label = self.random.pick(&self.labels[*target as usize - 1]);
                self.put("->");
                self.tokens.push(Token::Decimal(label));
            }
        }
    }

    fn name(&mut self, word: u32) {
        let name = &self.names[(word - LINK_WORDS) as usize];
        self.tokens.push(Token::Name(name.clone()));
    }

    /// A whole expression, sometimes with a plus that it does not need.
    fn expression(&mut self, expression: &Expression) {
        let start = self.tokens.len();
        self.part(expression, 1, true);
        let signed = matches!(self.tokens[start], Token::Symbol("-" | "\\"));
        if !signed && self.random.once_in(12) {
            self.tokens.insert(start, Token::Symbol("+"));
        }
    }

    fn bracketed(&mut self, expression: &Expression) {
        self.put("(");
        self.expression(expression);
        self.put(")");
    }

    /// An expression where only operators of at least some level may stand outside brackets, and
    /// a sign only if it begins an expression.
    fn part(&mut self, expression: &Expression, least: u32, begins: bool) {
        if self.random.once_in(self.brackets) {
            return self.bracketed(expression);
        }
        match expression {
            Expression::Word(word) => self.name(*word),
            Expression::Constant(value) => self.constant(*value),
            Expression::Unary(Sign::Not, operand) if begins => {
                self.put("\\");
                self.part(operand, 4, false);
            }
            Expression::Unary(Sign::Neg, operand) if begins && least == 1 => {
                self.put("-");
                self.part(operand, 2, false);
            }
            Expression::Binary(operator, left, right) if level(*operator) >= least => {
                self.part(left, level(*operator), begins);
                self.put(OPERATORS[*operator as usize].1);
                self.part(right, level(*operator) + 1, false);
            }
            _ => self.bracketed(expression),
        }
    }

    fn constant(&mut self, value: u32) {
        let bytes = value.to_be_bytes();
        let mut bytes = bytes.iter().skip_while(|byte| **byte == 0);
        let may_be_quoted = value > 0 && bytes.all(|byte| matches!(byte, 10 | 32..=126));
        let token = match may_be_quoted && self.random.once_in(2) {
            true => Token::Quoted(value),
            false => Token::Decimal(value),
        };
        self.tokens.push(token);
    }
}

/// The level of an operator, the lowest 1. It is not the grammar's function, so that reading back
/// what was written here checks that one.
fn level(operator: Operator) -> u32 {
    match OPERATORS[operator as usize].1 {
        "**" | "<<" | ">>" => 3,
        "*" | "/" | "&" => 2,
        _ => 1,
    }
}
