//! Whole runs of random good objects.

use skimp::MOST_ORDERS;
use skimp_reference::random::Random;

use crate::call::Call;
use crate::program::{random_call, Program, Style, STYLES};

const PROGRAMS: usize = 6000;
/// Runs of each program, from different states.
const RUNS: usize = 4;

/// How many orders a program has, with both ends of the range and its middle often.
fn length(random: &mut Random, most: usize) -> usize {
    let half = most / 2;
    match random.below(16) {
        0 => 1,
        1 => random.pick(&[2, half - 1, half, half + 1, most - 1, most]),
        2 => random.between(1, most),
        3..=6 => random.between(2, most.min(150)),
        _ => random.between(2, most.min(30)),
    }
}

fn budget(random: &mut Random, style: Style) -> u32 {
    match random.below(6) {
        0 => 0,
        1 => 1,
        2 | 3 => random.between(2, 64) as u32,
        // its runs all end
        4 if style == Style::Forward => u32::MAX - random.below(2) as u32,
        _ => 10_000,
    }
}

/// How often each ending came, of runs that had not ended before.
#[derive(Default)]
struct Tally {
    endings: [usize; 21],
    /// Faults of runs that took no step for want of budget.
    faults_without_budget: usize,
    ended_before: usize,
    steps: u64,
    used_up_budgets: usize,
}

impl Tally {
    fn add(&mut self, source: &str, call: &Call) {
        let outcome = call.outcome(source);
        if call.state[16..20] != [0; 4] {
            self.ended_before += 1;
            assert_eq!(outcome.value, 0, "{source}: an ended state took a step");
            assert_eq!(outcome.state, call.state, "{source}: an ended state moved");
            assert_eq!(u32::from(outcome.state[19]), outcome.number, "{source}");
            return;
        }
        let fault = (1..=4).contains(&outcome.number);
        self.endings[outcome.number as usize] += 1;
        self.faults_without_budget += usize::from(fault && call.budget == 0);
        self.steps += u64::from(outcome.value);
        self.used_up_budgets += usize::from(outcome.number == 0 && call.budget == 10_000);
    }
}

#[test]
fn random_programs() {
    let source = "random programs, seed 1";
    let mut random = Random(1);
    let mut tally = Tally::default();
    for round in 0..PROGRAMS {
        let style = STYLES[round % STYLES.len()];
        let length = length(&mut random, MOST_ORDERS);
        let program = Program::random(&mut random, style, length);
        for _ in 0..RUNS {
            let budget = budget(&mut random, style);
            let call = random_call(&mut random, &program, budget);
            tally.add(source, &call);
        }
    }
    for (number, least) in [
        (0, 5000),
        (1, 200),
        (2, 150),
        (3, 1000),
        (4, 500),
        (20, 4000),
    ] {
        let count = tally.endings[number];
        assert!(count >= least, "{source}: {count} runs ended with {number}");
    }
    assert!(tally.faults_without_budget >= 50, "{source}");
    assert!(tally.ended_before >= 1000, "{source}");
    assert!(tally.steps >= 5_000_000, "{source}: {} steps", tally.steps);
    assert!(tally.used_up_budgets >= 500, "{source}");
}
