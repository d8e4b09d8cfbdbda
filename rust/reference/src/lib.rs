//! The rules of document 01 in plain Rust, with the groups of request L1, the rounded division of
//! request L3, the limits of request L4 and the joined conditions of request L5. The tests compare the
//! archives with it, and the benchmark measures the archive's calls against its own, so they are
//! written for speed. It shares no code with the archives.
//!
//! Besides the rules there is what the tests of this workspace share: random numbers, sheets and
//! sources (`random`, `generate`, `writing`), damaged objects (`damage`), what was covered
//! (`census`, `rests`), runs held to a meaning (`runs`), and calls held to the rules (`agree`).

#![forbid(unsafe_code)]

pub mod agree;
pub mod census;
mod compact;
pub mod condition;
pub mod count;
pub mod damage;
pub mod generate;
pub mod interpret;
pub mod limits;
mod machine;
pub mod object;
pub mod random;
pub mod rests;
pub mod runs;
pub mod samples;
pub mod sheet;
pub mod source;
mod text;
pub mod translate;
pub mod untranslate;
pub mod writing;

use machine::State;
use object::Object;

/// What a call replies: document 01's number with the length of the text, with the steps, or with
/// the place of a refusal.
#[derive(Clone, Copy, Debug, PartialEq, Eq)]
pub struct Reply {
    pub number: u32,
    pub value: u32,
}

/// Document 01's number of a refusal, and its place.
#[derive(Clone, Copy, Debug, PartialEq, Eq, PartialOrd, Ord)]
pub struct Refusal {
    pub number: u32,
    pub place: u32,
}

const OBJECT_TOO_SHORT: u32 = 12;
const BAD_STATE: u32 = 26;
const NO_SHEET: u32 = 31;
const SHEET_TOO_SHORT: u32 = 32;

/// The text of a source's object, or the refusal of the source.
pub fn object_text(source: &[u8]) -> Result<Vec<u8>, Refusal> {
    let sheet = source::read_compact(source)?;
    // the limits have been held statement by statement
    let translation = translate::translate_compact(&sheet);
    Ok(object::text(
        translation.variables,
        translation.temporaries,
        &translation.orders,
    ))
}

/// The text of the sheet that translates to an object, or the refusal of the object.
pub fn sheet_text(object: &[u8]) -> Result<Vec<u8>, Refusal> {
    let object = Object::read(object)?;
    let sizes = [object.variables, object.temporaries];
    let sheet = untranslate::untranslate_compact(sizes, &object.orders);
    let sheet = sheet.ok_or(Refusal {
        number: NO_SHEET,
        place: 0,
    })?;
    Ok(sheet.text())
}

/// Compiles a source into the front of a buffer, as `skimp_compile` of `skimp.h` does.
pub fn compile(source: &[u8], object: &mut [u8]) -> Reply {
    hand_over(object_text(source), object, OBJECT_TOO_SHORT)
}

/// Reads an object back into the front of a buffer, as `skimp_read_back` does.
pub fn read_back(object: &[u8], sheet: &mut [u8]) -> Reply {
    hand_over(sheet_text(object), sheet, SHEET_TOO_SHORT)
}

/// Copies a text into the front of a buffer, and gives its length; or gives the refusal, or that of
/// a buffer that is too short.
fn hand_over(text: Result<Vec<u8>, Refusal>, buffer: &mut [u8], too_short: u32) -> Reply {
    let (number, value) = match text {
        Ok(text) => match buffer.get_mut(..text.len()) {
            Some(front) => {
                front.copy_from_slice(&text);
                (0, text.len() as u32)
            }
            None => (too_short, 0),
        },
        Err(Refusal { number, place }) => (number, place),
    };
    Reply { number, value }
}

/// Runs an object from a state for at most `budget` steps, as `skimp_run` of `skimp.h` does.
pub fn run(object: &[u8], state: &mut [u8], output: &mut [u8], budget: u32) -> Reply {
    let object = match Object::read(object) {
        Ok(object) => object,
        Err(Refusal { number, place }) => {
            return Reply {
                number,
                value: place,
            };
        }
    };
    let Some(mut last) = State::read(state, &object, output.len() / 4) else {
        return Reply {
            number: BAD_STATE,
            value: 0,
        };
    };
    let steps = last.run(&object.padded(), output, budget);
    last.write(state);
    Reply {
        number: last.ending,
        value: steps,
    }
}
