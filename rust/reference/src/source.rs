//! From SKIMP source to its sheet, or to the one refusal and place that document 01 settles.
//!
//! Each part of the reading is a module: `cells` parts bytes into statements of cells, `tokens`
//! cuts cells into tokens, `grammar` finds the form of a statement, and `program` holds its names,
//! labels and limits, with the `tables` of names and labels.

pub mod cells;
mod grammar;
mod program;
mod tables;
mod tokens;

use crate::compact::Compact;
use crate::limits::{MOST_CELLS, MOST_SOURCE};
use crate::sheet::Sheet;
use crate::Refusal;
use cells::Statements;
use grammar::Lists;
use program::{Parts, Program};
use tokens::Token;

pub const SOURCE_TOO_LONG: u32 = 1;
pub const BYTE_NOT_ALLOWED: u32 = 2;
pub const SOURCE_ENDS_EARLY: u32 = 3;
pub const TOO_MANY_CELLS: u32 = 4;
pub const UNKNOWN_KEYWORD: u32 = 5;
pub const CONSTANT_INVALID: u32 = 6;
pub const NO_SUCH_FORM: u32 = 7;
pub const NAME_MISUSED: u32 = 8;
pub const LABEL_MISUSED: u32 = 9;
pub const NO_END: u32 = 10;
pub const OVER_LIMIT: u32 = 11;
pub const GROUP_MISUSED: u32 = 13;

fn refuse<T>(number: u32, place: u32) -> Result<T, Refusal> {
    Err(Refusal { number, place })
}

/// "Allowed bytes are 10 and 32 to 126."
fn is_allowed(byte: u8) -> bool {
    byte == b'\n' || (32..=126).contains(&byte)
}

/// The sheet of a source.
pub fn read(source: &[u8]) -> Result<Sheet, Refusal> {
    Ok(read_compact(source)?.sheet())
}

/// The compact sheet of a source. "1 comes first, then 2. Then statements in order, skipped ones
/// not counted, from 1."
pub fn read_compact(source: &[u8]) -> Result<Compact, Refusal> {
    if source.len() > MOST_SOURCE {
        return refuse(SOURCE_TOO_LONG, 0);
    }
    if let Some(offset) = source.iter().position(|&byte| !is_allowed(byte)) {
        return refuse(BYTE_NOT_ALLOWED, offset as u32);
    }
    let mut reader = Reader {
        program: Program::new(),
        tokens: Vec::with_capacity(MOST_CELLS),
        lists: Lists::default(),
    };
    let mut statements = Statements::new(source);
    let mut number = 0;
    while let Some(statement) = statements.read() {
        number += 1;
        let at_end = statement
            .and_then(|cells| reader.take(cells, number))
            .or_else(|refusal| refuse(refusal, number))?;
        // "`%ENDOFPROGRAM` ..., after which no more statements are read"
        if at_end {
            return reader.program.sheet();
        }
    }
    // "no `%ENDOFPROGRAM`: statements read"
    refuse(NO_END, number)
}

/// A program that is being read, and the tokens and lists of one statement after the other.
struct Reader {
    program: Program,
    tokens: Vec<Token>,
    lists: Lists,
}

impl Reader {
    /// Takes a statement into the program. Gives whether it is `%ENDOFPROGRAM`, or the number of
    /// its refusal: "the first of 5 and 6 from the left; then 7, 8, 9, 11", and 13 after 7.
    fn take(&mut self, cells: &[u8], number: u32) -> Result<bool, u32> {
        tokens::cut(cells, &mut self.tokens)?;
        let statement = grammar::parse(&self.tokens, cells, &mut self.lists);
        let statement = statement.ok_or(NO_SUCH_FORM)?;
        let lists = &self.lists;
        self.program
            .take(&statement, Parts { cells, lists }, number)
    }
}
