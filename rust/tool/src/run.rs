//! `skimp run`: a run from a state, and what is said of it.

use crate::arguments::Run;
use crate::files::{self, Place};
use crate::{object, refusal, trace};
use crate::{Failure, Outcome, DONE, FAULTED, NOT_ENDED};
use skimp::{Refusal, Reply, STATE_HEADER};
use std::fmt::Write;

/// The bytes of a word: see `skimp.h`.
const WORD: usize = 4;
const LINK_WORDS: usize = 2;

/// The numbers of a run's reply that are no faults: it goes on, or it stopped.
pub const GOING: u32 = 0;
pub const STOPPED: u32 = 20;
const FIRST_REFUSAL: u32 = 21;
const BAD_STATE: u32 = 26;

/// A program on its way: its object, its state, and the output that it sends to.
pub struct Running {
    object: Vec<u8>,
    /// V of the object's header.
    variables: usize,
    state: Vec<u8>,
    output: Vec<u8>,
}

impl Running {
    /// Goes on for at most `budget` steps.
    pub fn go(&mut self, budget: u32) -> Reply {
        skimp::run(&self.object, &mut self.state, &mut self.output, budget)
    }

    pub fn accumulator(&self) -> i32 {
        self.signed(0)
    }

    pub fn next_order(&self) -> usize {
        self.signed(4) as usize
    }

    /// How many numbers have been sent.
    pub fn sent(&self) -> usize {
        let count = self.state[8..16].iter();
        count.fold(0, |number, &byte| number << 8 | usize::from(byte))
    }

    pub fn word(&self, word: usize) -> i32 {
        self.signed(STATE_HEADER + WORD * word)
    }

    /// A word as sheets write it, or the temporary that it is.
    pub fn name(&self, word: usize) -> String {
        match word.checked_sub(LINK_WORDS + self.variables) {
            None => format!("W{word}"),
            Some(temporary) => format!("temporary {temporary}"),
        }
    }

    /// The number that was sent as number `count`, from 0.
    pub fn number(&self, count: usize) -> i32 {
        signed(&self.output, WORD * count)
    }

    /// An order as it is written, its fields parted by spaces.
    pub fn order(&self, order: usize) -> String {
        object::spaced(object::record(&self.object, order).unwrap_or(b""))
    }

    fn signed(&self, place: usize) -> i32 {
        signed(&self.state, place)
    }
}

/// The word in four bytes, highest first.
fn signed(bytes: &[u8], place: usize) -> i32 {
    let word = bytes[place..place + WORD].try_into();
    i32::from_be_bytes(word.expect("four bytes"))
}

/// Runs an object as the arguments say.
pub fn perform(run: &Run) -> Result<Outcome, Failure> {
    let object = files::read(&run.object)?;
    let header = object::header(&object);
    // where there is no such header, the object is refused for it
    let bytes = header.map_or(0, |header| {
        skimp::state_bytes(header.variables, header.temporaries)
    });
    let stored = match &run.state {
        Some(path) => files::read_if_there(path)?,
        None => None,
    };
    let mut running = Running {
        object,
        variables: header.map_or(0, |header| header.variables),
        // "Words start at 0": a state of zero bytes is the start of a run
        state: stored.unwrap_or_else(|| vec![0; bytes]),
        output: vec![0; WORD * run.room as usize],
    };
    // a run of no steps tells whether object and state are accepted
    let reply = running.go(0);
    if reply.number >= FIRST_REFUSAL {
        return Err(refused(run, &running.object, reply));
    }
    let before = running.sent();
    let mut text = String::new();
    let reply = steps(&mut running, reply, run, &mut text);
    report(&running, reply, before, &mut text);
    let status = match reply.number {
        STOPPED => DONE,
        GOING => NOT_ENDED,
        _ => FAULTED,
    };
    Ok(Outcome {
        text: text.into_bytes(),
        file: run
            .state
            .clone()
            .map(|path| (Place::Path(path), running.state)),
        status,
    })
}

/// Takes the steps, the first of them traced if that is asked. The reply has all of them.
fn steps(running: &mut Running, start: Reply, run: &Run, text: &mut String) -> Reply {
    let mut reply = start;
    if run.trace {
        reply = trace::trace(running, start, run.steps, text);
    }
    if reply.number != GOING {
        return reply;
    }
    let rest = running.go(run.steps - reply.value);
    Reply {
        number: rest.number,
        value: reply.value + rest.value,
    }
}

/// The numbers sent, the steps, the ending, and the variables.
fn report(running: &Running, reply: Reply, before: usize, text: &mut String) {
    *text += "sent:";
    for count in before..running.sent() {
        write!(text, " {}", running.number(count)).expect("a string takes all text");
    }
    if running.sent() == before {
        *text += " nothing";
    }
    writeln!(text, "\nsteps: {}", reply.value).expect("a string takes all text");
    *text += "ending: ";
    *text += ending(reply.number);
    if reply.number != STOPPED {
        let next = running.next_order();
        write!(text, ", at order {next}, {}", running.order(next))
            .expect("a string takes all text");
    }
    text.push('\n');
    for word in LINK_WORDS..LINK_WORDS + running.variables {
        writeln!(text, "W{word} = {}", running.word(word)).expect("a string takes all text");
    }
}

/// How a run ended, in words.
pub fn ending(number: u32) -> &'static str {
    match number {
        GOING => "not ended, the steps are used up",
        1 => "fault 1, zero divisor",
        2 => "fault 2, negative exponent",
        3 => "fault 3, shift count outside 0 to 31",
        4 => "fault 4, SEND with the output full",
        _ => "stopped",
    }
}

/// The refusal of a run. That of a state is told of the state's file.
fn refused(run: &Run, object: &[u8], reply: Reply) -> Failure {
    let refusal = Refusal {
        number: reply.number,
        place: reply.value,
    };
    let name = match &run.state {
        Some(path) if reply.number == BAD_STATE => path.display().to_string(),
        _ => run.object.to_string(),
    };
    Failure::Refused(refusal::of_object(&name, object, refusal))
}
