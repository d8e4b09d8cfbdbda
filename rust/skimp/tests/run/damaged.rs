//! Damaged object texts and texts of random bytes.

use std::collections::BTreeSet;

use skimp::MOST_ORDERS;
use skimp_reference::damage::texts::{BYTES, DAMAGES};
use skimp_reference::random::Random;

use crate::call::{Call, REFUSALS};
use crate::program::{random_state, Program, STYLES};

const TEXTS_OF_EACH: usize = 2500;

/// How often each refusal came, and at which places.
#[derive(Default)]
struct Tally {
    counts: [usize; 27],
    places: [BTreeSet<u32>; 27],
    accepted: usize,
}

impl Tally {
    /// Calls with a text, a state for the program it was made from, and a small budget.
    fn check(
        &mut self,
        random: &mut Random,
        source: &str,
        program: &Program,
        text: Vec<u8>,
    ) -> u32 {
        let length = random.below(20);
        let call = Call {
            object: text,
            state: random_state(random, program, length),
            output: random.bytes(length),
            budget: random.below(30) as u32,
        };
        let outcome = call.outcome(source);
        if REFUSALS.contains(&outcome.number) {
            self.counts[outcome.number as usize] += 1;
            self.places[outcome.number as usize].insert(outcome.value);
        } else {
            self.accepted += 1;
        }
        outcome.number
    }
}

fn some_program(random: &mut Random) -> Program {
    let length = match random.below(32) {
        0 => random.between(MOST_ORDERS / 2, MOST_ORDERS),
        1..=3 => random.between(20, 150),
        _ => random.between(1, 12),
    };
    let style = random.pick(&STYLES);
    Program::random(random, style, length)
}

#[test]
fn damaged_texts() {
    let mut random = Random(5);
    let mut tally = Tally::default();
    for (name, damage) in DAMAGES {
        let mut refused = 0;
        for _ in 0..TEXTS_OF_EACH {
            let program = some_program(&mut random);
            let mut text = program.text();
            damage(&mut random, &mut text);
            while random.once_in(3) && text.len() > 1 {
                let (_, another) = random.pick(&DAMAGES);
                another(&mut random, &mut text);
            }
            let number = tally.check(&mut random, name, &program, text);
            refused += usize::from(REFUSALS.contains(&number));
        }
        assert!(refused >= 500, "{name}: {refused} texts refused");
    }
    for (number, least, places) in [
        (21, 1000, 1),
        (22, 10_000, 500),
        (23, 1000, 100),
        (24, 1000, 100),
        (25, 1000, 100),
        (26, 50, 1),
    ] {
        let (count, seen) = (tally.counts[number], tally.places[number].len());
        assert!(count >= least, "{count} texts refused with {number}");
        assert!(seen >= places, "{number} at {seen} places");
    }
    assert!(tally.accepted >= 1000, "{} accepted", tally.accepted);
}

#[test]
fn random_bytes() {
    let mut random = Random(6);
    let mut tally = Tally::default();
    for _ in 0..3000 {
        let program = some_program(&mut random);
        let length = random.below(64);
        let header: &[u8] = random.pick(&[b"", b"BOX\t", b"BOX\t1\t1\t2\n", b"BOX\t0\t0\t1\n"]);
        let tail: Vec<u8> = match random.below(2) {
            0 => random.bytes(length),
            _ => (0..length).map(|_| random.pick(BYTES)).collect(),
        };
        let text = [header, &tail].concat();
        tally.check(&mut random, "random bytes, seed 6", &program, text);
    }
    assert!(tally.counts[21] >= 500, "{} headers", tally.counts[21]);
    assert!(tally.counts[22] >= 500, "{} lines", tally.counts[22]);
}
