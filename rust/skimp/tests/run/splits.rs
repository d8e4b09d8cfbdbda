//! Running a and then b more steps over one output does what running a + b steps does.

use skimp_reference::random::Random;

use crate::call::{Call, Outcome};
use crate::program::{random_call, Program, Style};

const PROGRAMS: usize = 1000;
const MOST_BUDGET: usize = 64;

/// The call that goes on from an outcome.
fn go_on(call: &Call, from: &Outcome, budget: u32) -> Call {
    Call {
        object: call.object.clone(),
        state: from.state.clone(),
        output: from.output.clone(),
        budget,
    }
}

/// Runs the call in slices. The steps are those of all slices.
fn in_slices(call: &Call, slices: &[u32]) -> Outcome {
    let mut last = Outcome {
        number: 0,
        value: 0,
        state: call.state.clone(),
        output: call.output.clone(),
    };
    for &budget in slices {
        let steps = last.value;
        last = go_on(call, &last, budget).archive();
        last.value += steps;
    }
    last
}

#[derive(Default)]
struct Tally {
    splits: usize,
    /// Splits of which both parts took steps.
    both_parts: usize,
    /// Splits of which the first part had ended with its budget used up.
    ended_at_split: usize,
    endings: [usize; 21],
}

fn every_split(call: &Call, whole: &Outcome, tally: &mut Tally) {
    for first in 0..=call.budget {
        let parts = in_slices(call, &[first, call.budget - first]);
        assert_eq!(&parts, whole, "{first} steps, then the rest");
        let ended = whole.number != 0;
        tally.splits += 1;
        tally.both_parts += usize::from(first > 0 && first < whole.value);
        tally.ended_at_split += usize::from(ended && first == whole.value);
    }
    let steps = vec![1; call.budget as usize];
    if !steps.is_empty() {
        assert_eq!(&in_slices(call, &steps), whole, "a step at a time");
    }
    tally.endings[whole.number as usize] += 1;
}

#[test]
fn splits_of_the_budget() {
    let mut random = Random(3);
    let mut tally = Tally::default();
    for round in 0..PROGRAMS {
        let style = [Style::Any, Style::Steady, Style::Looping][round % 3];
        let length = random.between(1, 30);
        let program = Program::random(&mut random, style, length);
        let budget = random.below(MOST_BUDGET + 1) as u32;
        let call = random_call(&mut random, &program, budget);
        let whole = call.outcome("splits, seed 3");
        every_split(&call, &whole, &mut tally);
    }
    assert!(tally.splits >= 20_000, "{} splits", tally.splits);
    assert!(tally.both_parts >= 5_000, "{} in parts", tally.both_parts);
    assert!(tally.ended_at_split >= 300, "{}", tally.ended_at_split);
    for number in [0, 1, 2, 3, 4, 20] {
        let count = tally.endings[number];
        assert!(count >= 10, "{count} runs ended with {number}");
    }
}

/// A long run in slices of random sizes.
#[test]
fn long_runs_in_slices() {
    let mut random = Random(4);
    let mut used_up = 0;
    for _ in 0..200 {
        let length = random.between(10, 60);
        let program = Program::random(&mut random, Style::Looping, length);
        let slices: Vec<u32> = (0..20).map(|_| random.below(500) as u32).collect();
        let call = random_call(&mut random, &program, slices.iter().sum());
        let whole = call.outcome("slices, seed 4");
        assert_eq!(in_slices(&call, &slices), whole);
        used_up += usize::from(whole.number == 0);
    }
    assert!(used_up >= 50, "{used_up} runs used their budget up");
}
