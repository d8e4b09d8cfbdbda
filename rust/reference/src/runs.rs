//! Runs of a translation, held to the meaning of its sheet.

use crate::count::{comparison_orders, counts};
use crate::interpret::{Ending, Meaning};
use crate::rests::Rests;
use crate::sheet::{Line, Sheet, OPERATORS, RELATIONS};
use crate::translate::Translation;

/// A program that has not ended is left after so many instructions.
const MOST_INSTRUCTIONS: usize = 200;
/// The bytes of a state before its words, and those of the link words.
const HEADER: usize = 20;
const LINK: usize = 8;
/// What the output holds where nothing was sent.
const UNTOUCHED: u8 = 0x5A;
/// Bytes of the output that have no room for a number.
const ODD_BYTES: usize = 3;

/// What was run, and how it went.
#[derive(Default)]
pub struct Runs {
    pub programs: usize,
    pub runs: usize,
    /// How many programs ended with each number; 0 is for those that went on.
    pub endings: [usize; 21],
    operations: [usize; 10],
    rests: Rests,
    comparisons: [[usize; 2]; 6],
    joined: [[usize; 2]; 2],
    /// Faults in a comparison behind the first of its IF.
    late_faults: usize,
    skips: [usize; 3],
}

/// The bytes that a run is lent and leaves.
#[derive(Clone, Debug, PartialEq, Eq)]
struct Lent {
    state: Vec<u8>,
    output: Vec<u8>,
}

/// A program and the run that it is held to. `run` takes what `skimp_run` takes, and gives the number
/// and the steps.
struct Program<'a, R> {
    name: &'a str,
    sheet: &'a Sheet,
    object: Vec<u8>,
    start: Lent,
    firsts: Vec<u32>,
    run: R,
}

impl Runs {
    /// "For every k that it reaches, the run with the count of the first k instructions as budget
    /// reports that count as its steps and has its variables and numbers sent." `run` takes what
    /// `skimp_run` takes, and gives the number and the steps.
    pub fn hold(
        &mut self,
        name: &str,
        sheet: &Sheet,
        translation: &Translation,
        room: usize,
        run: impl Fn(&[u8], &mut [u8], &mut [u8], u32) -> (u32, u32),
    ) {
        let words = 2 + translation.variables + translation.temporaries;
        let program = Program {
            name,
            sheet,
            object: translation.text().into_bytes(),
            start: Lent {
                state: vec![0; HEADER + 4 * words as usize],
                output: vec![UNTOUCHED; 4 * room + ODD_BYTES],
            },
            firsts: first_orders(sheet),
            run,
        };
        let mut meaning = Meaning::new(sheet, room);
        let mut resumed = program.whole(&meaning, 0);
        self.runs += 1;
        for turn in 0..MOST_INSTRUCTIONS {
            let before = meaning.count;
            meaning.advance();
            let whole = program.whole(&meaning, meaning.count);
            program.go_on(&mut resumed, &meaning, meaning.count - before, turn);
            assert!(resumed == whole, "{name}: in slices\n{}", sheet.text());
            self.runs += 2;
            if meaning.ending.is_some() {
                for budget in [meaning.count + 1, meaning.count + 100, u64::from(u32::MAX)] {
                    program.whole(&meaning, budget);
                    self.runs += 1;
                }
                break;
            }
        }
        self.add(&meaning);
    }

    fn add(&mut self, meaning: &Meaning) {
        self.programs += 1;
        self.endings[meaning.ending.map_or(0, |ending| ending as usize)] += 1;
        for (all, some) in self.operations.iter_mut().zip(meaning.operations) {
            *all += some;
        }
        self.rests.add_all(&meaning.rests);
        for (all, some) in self.comparisons.iter_mut().zip(meaning.comparisons) {
            all[0] += some[0];
            all[1] += some[1];
        }
        let joined = self.joined.as_flattened_mut().iter_mut();
        for (all, some) in joined.zip(meaning.joined.as_flattened()) {
            *all += some;
        }
        let is_fault = !matches!(meaning.ending, None | Some(Ending::Stopped));
        self.late_faults += usize::from(is_fault && meaning.tried > 0);
        for (all, some) in self.skips.iter_mut().zip(meaning.skips) {
            *all += some;
        }
    }

    /// Holds every ending, operation and answer of a comparison and of a joined condition, all that a
    /// division may leave with all signs, and one, two and more SKIPs in a row, to having come `least`
    /// times; faults behind the first comparison of an IF to a fifth of that.
    pub fn every_way(&self, source: &str, least: usize) {
        for number in [0, 1, 2, 3, 4, 20] {
            let count = self.endings[number];
            assert!(
                count >= least,
                "{source}: {count} programs ended with {number}"
            );
        }
        for ((_, sign), count) in OPERATORS.iter().zip(self.operations) {
            assert!(count >= least, "{source}: {sign} was done {count} times");
        }
        self.rests.every_way(source, least);
        for ((_, sign), [failed, held]) in RELATIONS.iter().zip(self.comparisons) {
            assert!(failed >= least, "{source}: {sign} failed {failed} times");
            assert!(held >= least, "{source}: {sign} held {held} times");
        }
        for (tried, [failed, held]) in ["some", "all"].iter().zip(self.joined) {
            assert!(
                failed.min(held) >= least,
                "{source}: with {tried} tried, conditions failed {failed} and held {held} times"
            );
        }
        let late = self.late_faults;
        assert!(5 * late >= least, "{source}: {late} late faults");
        let skips = self.skips;
        assert!(
            skips.iter().all(|&count| count >= least),
            "{source}: SKIPs in a row {skips:?}"
        );
    }
}

impl<R: Fn(&[u8], &mut [u8], &mut [u8], u32) -> (u32, u32)> Program<'_, R> {
    fn run(&self, lent: &mut Lent, budget: u64) -> (u32, u32) {
        let budget = budget.try_into().expect("few instructions");
        (self.run)(&self.object, &mut lent.state, &mut lent.output, budget)
    }

    /// Runs the program from the start, and holds what comes of it to the meaning.
    fn whole(&self, meaning: &Meaning, budget: u64) -> Lent {
        let mut lent = self.start.clone();
        let reply = self.run(&mut lent, budget);
        let meant = (ending(meaning), meaning.count as u32);
        assert!(
            reply == meant && lent.is_of(meaning, &self.firsts),
            "{}: with budget {budget} the run gives {reply:?} and\n{lent:?}\nmeant are {meant:?}, \
             {:?}, sent {:?}\n{}",
            self.name,
            meaning.variables,
            meaning.sent,
            self.sheet.text()
        );
        lent
    }

    /// Goes on with a run by the steps of one instruction, in two slices.
    fn go_on(&self, lent: &mut Lent, meaning: &Meaning, steps: u64, turn: usize) {
        let first = turn as u64 % (steps + 1);
        let replies = [first, steps - first].map(|budget| self.run(lent, budget));
        let in_slices = (replies[1].0, u64::from(replies[0].1 + replies[1].1));
        assert!(
            in_slices == (ending(meaning), steps),
            "{}: in slices of {steps} steps {replies:?}\n{}",
            self.name,
            self.sheet.text()
        );
    }
}

/// The number that a run gives: 0 where the program has not ended.
fn ending(meaning: &Meaning) -> u32 {
    meaning.ending.map_or(0, |ending| ending as u32)
}

impl Lent {
    /// Whether these are the variables, the numbers sent, the ending and the next order of a
    /// meaning.
    fn is_of(&self, meaning: &Meaning, firsts: &[u32]) -> bool {
        let variables = bytes(&meaning.variables);
        let mut sent = bytes(&meaning.sent);
        sent.resize(self.output.len(), UNTOUCHED);
        self.state[4..8] == next_order(meaning, firsts).to_be_bytes()
            && self.state[8..16] == (meaning.sent.len() as u64).to_be_bytes()
            && self.state[16..HEADER] == ending(meaning).to_be_bytes()
            && self.state[HEADER..HEADER + LINK] == [0; LINK]
            && self.state[HEADER + LINK..][..variables.len()] == variables
            && self.output == sent
    }
}

/// The first order of each line, and STOP.
fn first_orders(sheet: &Sheet) -> Vec<u32> {
    let mut firsts = vec![0];
    for line in &sheet.lines {
        firsts.push(firsts[firsts.len() - 1] + counts(line).0);
    }
    firsts
}

/// Where the next order of a program stands: the first of the next instruction, STOP, or the one
/// that faulted.
fn next_order(meaning: &Meaning, firsts: &[u32]) -> u32 {
    let first = firsts[meaning.next];
    match meaning.ending {
        None | Some(Ending::Stopped) => first,
        Some(_) => first + before_tried(meaning) + (meaning.count - meaning.begun) as u32,
    }
}

/// How many orders of an IF stand before the comparison that was tried last.
fn before_tried(meaning: &Meaning) -> u32 {
    let Some(Line::If(condition)) = meaning.sheet.lines.get(meaning.next) else {
        return 0;
    };
    let comparisons = condition.comparisons();
    let before = comparisons[..meaning.tried].iter();
    let orders: u32 = before.map(|only| comparison_orders(only)).sum();
    // COND
    orders + u32::from(comparisons.len() > 1)
}

fn bytes(words: &[i32]) -> Vec<u8> {
    words.iter().flat_map(|word| word.to_be_bytes()).collect()
}
