//! Names that are alike, looked up and declared. Each outcome is held to the reference and to what
//! document 01 settles.

mod alike;
mod long;
mod twice;
mod used;

use std::collections::BTreeMap;

use skimp_reference::agree::{Compared, COMPILE};
use skimp_reference::limits::{self, MOST_SOURCE};
use skimp_reference::random::Random;
use skimp_reference::writing::spelling::Style;
use skimp_reference::writing::token::Token;

use crate::compile_call;

const MOST_VARIABLES: usize = limits::MOST_VARIABLES as usize;
/// The cells of a statement before its end mark.
const MOST_CELLS: usize = limits::MOST_CELLS - 1;
/// The letters of the longest name that can be declared.
const MOST_DECLARED: usize = MOST_CELLS - "INTEGER".len();

/// Acceptance, or a number and a place.
type Expected = Result<(), (u32, u32)>;

struct Tries {
    random: Random,
    compared: Compared,
    /// How often sources of each kind had each number.
    met: BTreeMap<(&'static str, u32), usize>,
}

impl Tries {
    fn new(seed: u64) -> Tries {
        Tries {
            random: Random(seed),
            compared: Compared::new(COMPILE, compile_call),
            met: BTreeMap::new(),
        }
    }

    fn hold(&mut self, kind: &'static str, source: &[u8], expected: Expected) {
        let outcome = self.compared.check(kind, source);
        let outcome = outcome.map_err(|refusal| (refusal.number, refusal.place));
        let text = String::from_utf8_lossy(source);
        assert_eq!(outcome, expected, "{kind}:\n{text}");
        let number = expected.map_or_else(|(number, _)| number, |()| 0);
        *self.met.entry((kind, number)).or_default() += 1;
    }

    /// The same for statements between `%BEGIN` and `%ENDOFPROGRAM`: with small letters and spaces
    /// in the names, where that fits into the most bytes.
    fn spell(&mut self, kind: &'static str, statements: &[Vec<Token>], expected: Expected) {
        let [begin, end] = ["BEGIN", "ENDOFPROGRAM"].map(|word| [vec![Token::Keyword(word)]]);
        let statements = [&begin, statements, &end].concat();
        let mut source = Style::random(&mut self.random).source(&mut self.random, &statements);
        if source.len() > MOST_SOURCE {
            source = Style::PLAIN.source(&mut self.random, &statements);
        }
        self.hold(kind, &source, expected);
    }

    /// Holds kinds to having been met so often with a number, so that none was left out.
    fn end(self, least: &[(&'static str, u32, usize)]) {
        println!("{:?}", self.met);
        for &(kind, number, least) in least {
            let count = self.met.get(&(kind, number)).copied().unwrap_or(0);
            assert!(count >= least, "{kind}: {count} times {number}");
        }
    }
}

/// How many names of so many letters fit into a source in which each is declared and used twice.
fn fitting(letters: usize) -> usize {
    let room = MOST_SOURCE - 3 * MOST_CELLS;
    MOST_VARIABLES.min(room / (3 * letters + 40))
}
