//! The state of a run, and what the orders do to it.

use crate::limits::{MOST_TEMPORARIES, MOST_VARIABLES};
use crate::object::{Kind, Name, Object, Order, LINK_WORDS, PADDED};

/// As many words as the longest frame has, or more: a power of two lets an index be masked, as with
/// the orders.
const MOST_WORDS: usize =
    (LINK_WORDS + MOST_VARIABLES + MOST_TEMPORARIES).next_power_of_two() as usize;
const HEADER: usize = 20;

const ZERO_DIVISOR: u32 = 1;
const NEGATIVE_EXPONENT: u32 = 2;
const SHIFT_COUNT: u32 = 3;
const OUTPUT_FULL: u32 = 4;
const STOPPED: u32 = 20;

#[derive(Clone, Copy)]
pub struct State {
    accumulator: u32,
    next: usize,
    sent: usize,
    /// 0 while the program has not ended.
    pub ending: u32,
    words: [u32; MOST_WORDS],
}

impl State {
    /// The state of the bytes, if it fits the object and the room for numbers.
    pub fn read(bytes: &[u8], object: &Object, room: usize) -> Option<State> {
        if bytes.len() != HEADER + 4 * object.words() {
            return None;
        }
        let (header, frame) = bytes.split_at(HEADER);
        let sent = u64::from(word(&header[8..12])) << 32 | u64::from(word(&header[12..16]));
        let mut state = State {
            accumulator: word(&header[..4]),
            next: word(&header[4..8]) as usize,
            sent: usize::try_from(sent).ok().filter(|&sent| sent <= room)?,
            ending: word(&header[16..]),
            words: [0; MOST_WORDS],
        };
        for (slot, bytes) in state.words.iter_mut().zip(frame.chunks_exact(4)) {
            *slot = word(bytes);
        }
        let known = matches!(state.ending, 0..=4 | STOPPED);
        (known && state.next < object.orders.len()).then_some(state)
    }

    /// Writes the state over the bytes that it was read from.
    pub fn write(&self, bytes: &mut [u8]) {
        let (header, frame) = bytes.split_at_mut(HEADER);
        header[..4].copy_from_slice(&self.accumulator.to_be_bytes());
        header[4..8].copy_from_slice(&(self.next as u32).to_be_bytes());
        header[8..16].copy_from_slice(&(self.sent as u64).to_be_bytes());
        header[16..].copy_from_slice(&self.ending.to_be_bytes());
        for (bytes, word) in frame.chunks_exact_mut(4).zip(self.words) {
            bytes.copy_from_slice(&word.to_be_bytes());
        }
    }

    /// Carries out at most `budget` orders, and gives how many it did.
    pub fn run(&mut self, orders: &[Order; PADDED], output: &mut [u8], budget: u32) -> u32 {
        if self.ending != 0 {
            return 0;
        }
        // a copy of its own, which the compiler may hold in registers
        let mut state = *self;
        let mut left = budget;
        while left > 0 && state.ending == 0 {
            state.ending = state.step(orders[state.next % PADDED], output);
            left -= u32::from(matches!(state.ending, 0 | STOPPED));
        }
        if state.ending == 0 {
            state.ending = state.fault(orders[state.next % PADDED], output);
        }
        *self = state;
        budget - left
    }

    /// Carries out an order and gives 0, or gives the ending that it leads to.
    #[inline(always)]
    fn step(&mut self, order: Order, output: &mut [u8]) -> u32 {
        let target = order.number as usize;
        let word = &mut self.words[target % MOST_WORDS];
        let value = order.value(*word);
        let (mut acc, mut next) = (self.accumulator, self.next + 1);
        match order.name {
            Name::Load => acc = value,
            Name::Add => acc = acc.wrapping_add(value),
            Name::Sub => acc = acc.wrapping_sub(value),
            Name::Mlt => acc = acc.wrapping_mul(value),
            Name::Div if value == 0 => return ZERO_DIVISOR,
            Name::Div => acc = rounded_quotient(acc, value),
            Name::Exp if (value as i32) < 0 => return NEGATIVE_EXPONENT,
            Name::Exp => acc = acc.wrapping_pow(value),
            Name::Shl | Name::Shr if value > 31 => return SHIFT_COUNT,
            Name::Shl => acc <<= value,
            Name::Shr => acc >>= value,
            Name::And => acc &= value,
            Name::Or => acc |= value,
            Name::Xor => acc ^= value,
            Name::Cmp => acc = (acc as i32).cmp(&(value as i32)) as u32,
            Name::Str => *word = acc,
            Name::Neg => acc = acc.wrapping_neg(),
            Name::Not => acc = !acc,
            Name::Jmp | Name::Skip => next = target,
            Name::Be if acc == 0 => next = target,
            Name::Bne if acc != 0 => next = target,
            Name::Blt if (acc as i32) < 0 => next = target,
            Name::Ble if (acc as i32) <= 0 => next = target,
            Name::Bgt if (acc as i32) > 0 => next = target,
            Name::Bge if (acc as i32) >= 0 => next = target,
            // a branch that is not taken, and COND, which "does nothing"
            Name::Be | Name::Bne | Name::Blt | Name::Ble | Name::Bgt | Name::Bge | Name::Cond => {}
            Name::Send if self.full(output) => return OUTPUT_FULL,
            Name::Send => self.send(output),
            Name::Stop => return STOPPED,
        }
        (self.accumulator, self.next) = (acc, next);
        0
    }

    /// The fault that an order meets, or 0.
    fn fault(&self, order: Order, output: &[u8]) -> u32 {
        let value = order.value(self.words[order.number as usize % MOST_WORDS]);
        match order.name {
            Name::Div if value == 0 => ZERO_DIVISOR,
            Name::Exp if (value as i32) < 0 => NEGATIVE_EXPONENT,
            Name::Shl | Name::Shr if value > 31 => SHIFT_COUNT,
            Name::Send if self.full(output) => OUTPUT_FULL,
            _ => 0,
        }
    }

    fn full(&self, output: &[u8]) -> bool {
        self.sent >= output.len() / 4
    }

    #[inline(always)]
    fn send(&mut self, output: &mut [u8]) {
        let at = 4 * self.sent;
        output[at..at + 4].copy_from_slice(&self.accumulator.to_be_bytes());
        self.sent += 1;
    }
}

impl Order {
    /// What the order works on: its number or the word that it names.
    #[inline(always)]
    fn value(self, word: u32) -> u32 {
        if self.kind == Kind::Number {
            self.number
        } else {
            word
        }
    }
}

/// The quotient of two words, to the nearest whole number, halves away from zero. Their sizes are
/// divided, so that one unsigned division does for all signs. The least word by -1 is its size, which
/// is its pattern.
#[inline(always)]
fn rounded_quotient(dividend: u32, divisor: u32) -> u32 {
    let size = (dividend as i32).unsigned_abs();
    let divisor_size = (divisor as i32).unsigned_abs();
    let (quotient, rest) = (size / divisor_size, size % divisor_size);
    // the rest is less than 2^31, so that twice of it fits
    let rounded = quotient + u32::from(2 * rest >= divisor_size);
    let is_negative = ((dividend ^ divisor) as i32) < 0;
    if is_negative {
        rounded.wrapping_neg()
    } else {
        rounded
    }
}

/// The number in four bytes, highest first.
fn word(bytes: &[u8]) -> u32 {
    u32::from_be_bytes(bytes.try_into().expect("four bytes"))
}
