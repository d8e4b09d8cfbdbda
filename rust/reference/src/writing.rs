//! Sources for the tests: those of random sheets, damaged ones, statements of random tokens, sources
//! at the limits, and every source of some small kinds.

mod characters;
pub mod damage;
pub mod exhaustive;
pub mod joined;
pub mod limits;
pub mod program;
pub mod soup;
pub mod spelling;
pub mod token;

use crate::generate::Plan;
use crate::random::Random;
use crate::sheet::Sheet;
use spelling::Style;

/// How a random source is made.
#[derive(Clone, Copy, Debug, PartialEq, Eq)]
pub enum Making {
    /// From a sheet, in the plainest spelling.
    Plain,
    /// From a sheet, in a random spelling.
    Spelled,
    /// From a sheet of many orders.
    Large,
    /// From a sheet, some tokens or statements changed.
    Changed,
    /// From a sheet, some bytes of the source changed.
    Damaged,
    /// From random tokens.
    Soup,
    /// At a limit or next to it.
    Limit,
}

/// Each with how many of a thousand sources are made so.
pub const MAKINGS: [(Making, usize); 7] = [
    (Making::Plain, 50),
    (Making::Spelled, 150),
    (Making::Large, 2),
    (Making::Changed, 218),
    (Making::Damaged, 240),
    (Making::Soup, 240),
    (Making::Limit, 100),
];

/// A random source, and how it was made.
pub fn source(random: &mut Random) -> (Making, Vec<u8>) {
    let mut choice = random.below(1000);
    for (making, share) in MAKINGS {
        if choice < share {
            return (making, making.source(random));
        }
        choice -= share;
    }
    unreachable!("the shares make a thousand");
}

impl Making {
    /// A random source that is made so.
    pub fn source(self, random: &mut Random) -> Vec<u8> {
        match self {
            Making::Plain => {
                let (_, statements) = small_program(random);
                Style::PLAIN.source(random, &statements)
            }
            Making::Spelled => spelled_sheet(random).1,
            Making::Large => large_source(random),
            Making::Changed => {
                let (_, mut statements) = small_program(random);
                for _ in 0..random.pick(&[1, 1, 1, 2, 3]) {
                    damage::change(random, &mut statements);
                }
                Style::random(random).source(random, &statements)
            }
            Making::Damaged => {
                let mut source = spelled_sheet(random).1;
                for _ in 0..random.pick(&[1, 1, 2, 4]) {
                    damage::damage(random, &mut source);
                }
                source
            }
            Making::Soup => soup::source(random),
            Making::Limit => limits::source(random),
        }
    }
}

/// A sheet of a few orders, and the tokens of a program for it.
pub fn small_program(random: &mut Random) -> (Sheet, program::Statements) {
    loop {
        let orders = random.pick(&[1, 3, 5, 8, 12, 20, 30, 40, 90]);
        let mut sheet = Plan::random(random).sheet(random, orders);
        characters::put(random, &mut sheet);
        if let Some(statements) = program::write(random, &sheet) {
            return (sheet, statements);
        }
    }
}

/// A sheet of a few orders, and a source for it in a random spelling.
pub fn spelled_sheet(random: &mut Random) -> (Sheet, Vec<u8>) {
    let (sheet, statements) = small_program(random);
    let source = Style::random(random).source(random, &statements);
    (sheet, source)
}

/// The source of a sheet of many orders. It may be too long.
fn large_source(random: &mut Random) -> Vec<u8> {
    loop {
        let sheet = Plan::large_program(random);
        if let Some(statements) = program::write(random, &sheet) {
            return Style::random(random).source(random, &statements);
        }
    }
}
