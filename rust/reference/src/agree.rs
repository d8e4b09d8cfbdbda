//! A call that reads one text and writes another, held to the rules. The archive makes such calls,
//! and so does the reference itself, or a copy of it with a mistake.

use crate::limits::MOST_ORDERS;
use crate::{object, object_text, sheet_text, Refusal, Reply};
use std::collections::{BTreeMap, BTreeSet};

/// Reads a text and writes another to the front of the buffer, as `skimp_compile` and
/// `skimp_read_back` do: 0 with the text's length, or the number of the refusal with its place.
pub type Call = fn(&[u8], &mut [u8]) -> Reply;

/// What a call is held to.
#[derive(Clone, Copy)]
pub struct Rules {
    /// The text that is to be written, or the refusal, if the buffer is not too short.
    text: fn(&[u8]) -> Result<Vec<u8>, Refusal>,
    /// The number of the refusal of a buffer that is too short.
    too_short: u32,
    /// A buffer of so many bytes takes every text.
    most: usize,
    /// What stands behind the text in memory. A call that takes any of it goes wrong.
    behind: &'static [u8],
}

impl Rules {
    /// The text, or the refusal of a buffer that is too short for it, or the refusal that comes
    /// before.
    fn within<'t>(
        &self,
        expected: &'t Result<Vec<u8>, Refusal>,
        room: usize,
    ) -> Result<&'t [u8], Refusal> {
        match expected {
            Ok(text) if text.len() <= room => Ok(text),
            Ok(_) => Err(Refusal {
                number: self.too_short,
                place: 0,
            }),
            Err(refusal) => Err(*refusal),
        }
    }
}

pub const COMPILE: Rules = Rules {
    text: object_text,
    too_short: 12,
    most: object::MOST_TEXT,
    behind: b"\n%ENDOFPROGRAM\n\0",
};

pub const READ_BACK: Rules = Rules {
    text: sheet_text,
    too_short: 32,
    // no order brings more bytes than this, and STOP's are left for the first line
    most: 32 * MOST_ORDERS,
    behind: b"STOP\t-\t0\n\0",
};

/// Bytes around the buffer, which the call must leave alone. The odd length leaves the buffer at an
/// odd address.
const MARGIN: usize = 13;

/// A call with the buffers that are lent to it.
pub struct Compared {
    call: Call,
    rules: Rules,
    /// The text that is read, at an odd place, and what stands behind it.
    input: Vec<u8>,
    lent: Vec<u8>,
    /// The bytes that are lent, as they were.
    before: Vec<u8>,
}

/// What a text led to, by both.
pub type Outcome = Result<(), Refusal>;

impl Compared {
    pub fn new(rules: Rules, call: Call) -> Compared {
        let length = MARGIN + rules.most + MARGIN;
        // neighbours differ, so that bytes that were moved show
        let before: Vec<u8> = (0..length).map(|place| (place * 37 % 251) as u8).collect();
        Compared {
            call,
            rules,
            input: Vec::new(),
            lent: before.clone(),
            before,
        }
    }

    /// Makes the call with a buffer that takes every text. Gives the outcome, or says where the
    /// call differs from the rules.
    pub fn read(&mut self, input: &[u8]) -> Result<Outcome, String> {
        let expected = (self.rules.text)(input);
        self.compare(input, &expected, self.rules.most)
    }

    /// The same with a buffer of some length.
    fn compare(
        &mut self,
        input: &[u8],
        expected: &Result<Vec<u8>, Refusal>,
        room: usize,
    ) -> Result<Outcome, String> {
        let expected = self.rules.within(expected, room);
        let reply = match expected {
            Ok(text) => Reply {
                number: 0,
                value: text.len() as u32,
            },
            Err(Refusal { number, place }) => Reply {
                number,
                value: place,
            },
        };
        let text = expected.unwrap_or_default();
        let got = self.make_call(input, room);
        let difference = if got != reply {
            Some(format!("replies {got:?}, the rules {reply:?}"))
        } else if !self.has(text) {
            let (written, expected) = (self.written(), String::from_utf8_lossy(text));
            Some(format!("writes {written:?}, the rules {expected:?}"))
        } else {
            None
        };
        self.lent.copy_from_slice(&self.before);
        match difference {
            Some(difference) => Err(difference),
            None => Ok(expected.map(|_| ())),
        }
    }

    fn make_call(&mut self, input: &[u8], room: usize) -> Reply {
        self.input.clear();
        self.input.push(b'%');
        self.input.extend(input);
        self.input.extend(self.rules.behind);
        let read = 1..1 + input.len();
        let lent = &mut self.lent[MARGIN..MARGIN + room];
        let reply = (self.call)(&self.input[read.clone()], lent);
        assert!(self.input[read] == *input, "the call wrote to its input");
        reply
    }

    /// Whether the text stands at the buffer's front and every other byte is as it was.
    fn has(&self, text: &[u8]) -> bool {
        let end = MARGIN + text.len();
        &self.lent[MARGIN..end] == text
            && self.lent[..MARGIN] == self.before[..MARGIN]
            && self.lent[end..] == self.before[end..]
    }

    /// The buffer up to its last byte that was written.
    fn written(&self) -> String {
        let changed = |&place: &usize| self.lent[place] != self.before[place];
        let last = (0..self.lent.len()).rev().find(changed);
        let end = last.map_or(MARGIN, |last| (last + 1).max(MARGIN));
        String::from_utf8_lossy(&self.lent[MARGIN..end]).into_owned()
    }

    /// A shorter text for which the call still differs: no byte of it can be left out.
    pub fn shorten(&mut self, input: &[u8]) -> Vec<u8> {
        let mut input = input.to_vec();
        loop {
            let length = input.len();
            self.leave_out(&mut input);
            if input.len() == length {
                return input;
            }
        }
    }

    /// Leaves out pieces of a half of the text, of a quarter and so on, where the call still differs
    /// without them.
    fn leave_out(&mut self, input: &mut Vec<u8>) {
        let mut length = input.len().div_ceil(2);
        while length > 0 {
            let mut place = 0;
            while place + length <= input.len() {
                let shorter = [&input[..place], &input[place + length..]].concat();
                match self.read(&shorter) {
                    Err(_) => *input = shorter,
                    Ok(_) => place += length,
                }
            }
            length /= 2;
        }
    }

    /// Makes the call with a buffer that takes every text.
    ///
    /// # Panics
    ///
    /// If it differs from the rules.
    pub fn check(&mut self, name: &str, input: &[u8]) -> Outcome {
        self.read(input).unwrap_or_else(|difference| {
            let short = self.shorten(input);
            let again = self.read(&short).expect_err("shortened to a difference");
            panic!(
                "{name}: {difference}\n{}\nshortened: {again}\n{:?}",
                String::from_utf8_lossy(input),
                String::from_utf8_lossy(&short)
            )
        })
    }

    /// Makes the call with buffers of several lengths, given the length of the text, or 0 where the
    /// input is refused for itself. Gives how many of them were too short.
    ///
    /// # Panics
    ///
    /// If a call differs from the rules.
    pub fn check_rooms(
        &mut self,
        name: &str,
        input: &[u8],
        rooms: impl Fn(usize) -> Vec<usize>,
    ) -> usize {
        let expected = (self.rules.text)(input);
        let length = expected.as_ref().map_or(0, Vec::len);
        let mut too_short = 0;
        for room in rooms(length) {
            let outcome = self.compare(input, &expected, room);
            let outcome = outcome.unwrap_or_else(|difference| {
                let input = String::from_utf8_lossy(input);
                panic!("{name}: with {room} bytes of buffer it {difference}\n{input}")
            });
            let is_short = |refusal: Refusal| refusal.number == self.rules.too_short;
            too_short += usize::from(outcome.is_err_and(is_short));
        }
        too_short
    }
}

/// How often each outcome was met, and at which places.
#[derive(Default)]
pub struct Outcomes {
    pub texts: usize,
    pub accepted: usize,
    refused: BTreeMap<u32, (usize, BTreeSet<u32>)>,
}

impl Outcomes {
    pub fn add(&mut self, outcome: Outcome) {
        self.texts += 1;
        match outcome {
            Ok(()) => self.accepted += 1,
            Err(refusal) => {
                let (count, places) = self.refused.entry(refusal.number).or_default();
                *count += 1;
                places.insert(refusal.place);
            }
        }
    }

    /// How many texts were refused with a number, and at how many places.
    pub fn refused(&self, number: u32) -> (usize, usize) {
        let refused = self.refused.get(&number);
        refused.map_or((0, 0), |(count, places)| (*count, places.len()))
    }

    /// Holds acceptance and each refusal of a source, from 1 to 11 and 13, to having been met `least`
    /// times, and each but 1, which has only one place, to several places.
    pub fn every_one(&self, name: &str, least: usize) {
        assert!(self.accepted >= least, "{name}: {} accepted", self.accepted);
        for number in (1..=11).chain([13]) {
            self.met(name, number, least, if number == 1 { 1 } else { 5 });
        }
    }

    /// Holds a refusal to having been met `least` times, at `least_places` places.
    pub fn met(&self, name: &str, number: u32, least: usize, least_places: usize) {
        let (count, places) = self.refused(number);
        assert!(count >= least, "{name}: {count} times {number}");
        assert!(
            places >= least_places,
            "{name}: {number} at {places} places"
        );
    }
}

/// The counts, for people.
impl std::fmt::Display for Outcomes {
    fn fmt(&self, formatter: &mut std::fmt::Formatter<'_>) -> std::fmt::Result {
        write!(
            formatter,
            "{} texts, {} accepted",
            self.texts, self.accepted
        )?;
        for (number, (count, places)) in &self.refused {
            write!(formatter, "; {number}: {count} at {} places", places.len())?;
        }
        Ok(())
    }
}
