//! Random good objects that no compiler would make, and states to run them from.

use skimp_reference::random::Random;

use skimp::{MOST_TEMPORARIES, MOST_VARIABLES};

use crate::call::Call;

pub const WITH_VALUE: [&str; 12] = [
    "LOAD", "ADD", "SUB", "MLT", "DIV", "EXP", "SHL", "SHR", "AND", "OR", "XOR", "CMP",
];
/// COND takes a number and no word.
pub const WITH_NUMBER: [&str; 1] = ["COND"];
pub const WITH_ADDRESS: [&str; 8] = ["JMP", "SKIP", "BE", "BNE", "BLT", "BLE", "BGT", "BGE"];
/// STOP is not among them, since it may only be the last order.
pub const WITH_NOTHING: [&str; 3] = ["NEG", "NOT", "SEND"];
const NEVER_FAULTING: [&str; 8] = ["LOAD", "ADD", "SUB", "MLT", "AND", "OR", "XOR", "CMP"];

pub const FIRST_WORD: usize = 2;

#[derive(Clone)]
pub struct Order {
    pub name: &'static str,
    pub kind: char,
    pub number: u32,
}

#[derive(Clone)]
pub struct Program {
    pub variables: usize,
    pub temporaries: usize,
    pub orders: Vec<Order>,
}

/// What the orders of a program are drawn from.
#[derive(Clone, Copy, PartialEq, Eq)]
pub enum Style {
    /// All orders alike. Such a program soon faults.
    Any,
    /// Few orders that may fault.
    Steady,
    /// Steady, and a jump back before STOP, so that most runs go on.
    Looping,
    /// No jump back, so that every run ends.
    Forward,
}

pub const STYLES: [Style; 4] = [Style::Any, Style::Steady, Style::Looping, Style::Forward];

pub fn order(name: &'static str, kind: char, number: u32) -> Order {
    Order { name, kind, number }
}

impl Program {
    pub fn text(&self) -> Vec<u8> {
        let (variables, temporaries) = (self.variables, self.temporaries);
        let mut text = format!("BOX\t{variables}\t{temporaries}\t{}\n", self.orders.len());
        for Order { name, kind, number } in &self.orders {
            text += &format!("{name}\t{kind}\t{number}\n");
        }
        text.into_bytes()
    }

    /// The words of the frame, link words included.
    pub fn words(&self) -> usize {
        FIRST_WORD + self.variables + self.temporaries
    }

    /// A random program of `length` orders.
    pub fn random(random: &mut Random, style: Style, length: usize) -> Program {
        let variables = count(random, MOST_VARIABLES);
        let temporaries = count(random, MOST_TEMPORARIES);
        Program::of_size(random, style, [variables, temporaries, length])
    }

    /// A random program of these variables, temporaries and orders.
    pub fn of_size(random: &mut Random, style: Style, size: [usize; 3]) -> Program {
        let [variables, temporaries, length] = size;
        let mut program = Program {
            variables,
            temporaries,
            orders: Vec::with_capacity(length),
        };
        for place in 0..length - 1 {
            let lowest = if style == Style::Forward {
                place + 1
            } else {
                0
            };
            let order = random_order(random, style, program.words(), lowest, length);
            program.orders.push(order);
        }
        if style == Style::Looping && length > 1 {
            let back = random.below(length - 1) as u32;
            program.orders[length - 2] = order("JMP", 'A', back);
        }
        program.orders.push(order("STOP", '-', 0));
        program
    }
}

/// From 0 to `most`, the ends and about the middle often.
fn count(random: &mut Random, most: usize) -> usize {
    let half = most / 2;
    match random.below(4) {
        0 => random.pick(&[0, 1, half - 1, half, half + 1, most - 1, most]),
        1 => random.below(most + 1),
        _ => random.below(7),
    }
}

fn random_order(
    random: &mut Random,
    style: Style,
    words: usize,
    lowest: usize,
    length: usize,
) -> Order {
    let may_fault = style == Style::Any || random.once_in(8);
    match random.below(16) {
        0 | 1 if words > FIRST_WORD => order("STR", 'D', word(random, words)),
        2..=4 => {
            let target = random.between(lowest, length - 1);
            order(random.pick(&WITH_ADDRESS), 'A', target as u32)
        }
        5 => match random.below(3) {
            0 => order(random.pick(&WITH_NUMBER), 'K', number(random)),
            _ => order(random.pick(&["NEG", "NOT"]), '-', 0),
        },
        6 if may_fault => order("SEND", '-', 0),
        _ if may_fault => with_value(random, &WITH_VALUE, words),
        _ => with_value(random, &NEVER_FAULTING, words),
    }
}

fn with_value(random: &mut Random, names: &[&'static str], words: usize) -> Order {
    let name = random.pick(names);
    if words > FIRST_WORD && random.once_in(2) {
        return order(name, 'D', word(random, words));
    }
    order(name, 'K', number(random))
}

/// A word that an order may name.
fn word(random: &mut Random, words: usize) -> u32 {
    match random.below(4) {
        0 => FIRST_WORD as u32,
        1 => words as u32 - 1,
        _ => random.between(FIRST_WORD, words - 1) as u32,
    }
}

/// A number that an order may have, mostly one at which some rule changes.
fn number(random: &mut Random) -> u32 {
    match random.below(4) {
        0 => random.pick(&[0, 0, 0, 1, 2, 30, 31, 32, 33, 2147483646, 2147483647]),
        1 | 2 => random.below(33) as u32,
        _ => random.bits() as u32 >> 1,
    }
}

/// The bytes of a state.
pub fn state(acc: u32, next: u32, sent: u64, ending: u32, words: &[u32]) -> Vec<u8> {
    let mut bytes = [acc, next].map(u32::to_be_bytes).concat();
    bytes.extend(sent.to_be_bytes());
    bytes.extend(ending.to_be_bytes());
    bytes.extend(words.iter().flat_map(|word| word.to_be_bytes()));
    bytes
}

/// A state that fits the program and an output of `length` bytes, one in twelve ended.
pub fn random_state(random: &mut Random, program: &Program, length: usize) -> Vec<u8> {
    let ending = if random.once_in(12) {
        random.pick(&[1, 2, 3, 4, 20])
    } else {
        0
    };
    let room = length / 4;
    let sent = match random.below(4) {
        0 => room,
        1 => random.below(room + 1),
        _ => 0,
    };
    let next = match random.below(3) {
        0 => 0,
        _ => random.below(program.orders.len()),
    };
    let mut word = || {
        if random.once_in(4) {
            0
        } else {
            random.pattern()
        }
    };
    let words: Vec<u32> = (0..program.words()).map(|_| word()).collect();
    state(random.pattern(), next as u32, sent as u64, ending, &words)
}

/// A call with the program from a random state, with a random output.
pub fn random_call(random: &mut Random, program: &Program, budget: u32) -> Call {
    let length = match random.below(8) {
        0 => random.below(4),
        1 => random.between(400, 8000),
        _ => random.below(61),
    };
    Call {
        object: program.text(),
        state: random_state(random, program, length),
        output: random.bytes(length),
        budget,
    }
}
