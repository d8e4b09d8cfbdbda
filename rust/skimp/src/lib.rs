//! Safe functions over `libskimp.a`, the proved archive that the box's supervisor calls.
//! `include/skimp.h` states what they promise.
//!
//! ```
//! let source = b"%BEGIN;SEND(6*7);%ENDOFPROGRAM";
//! let (mut object, mut sheet) = ([0; skimp::OBJECT_MOST], [0; skimp::SHEET_MOST]);
//! let object = skimp::compile(source, &mut object)?;
//! assert_eq!(object, b"BOX\t0\t0\t4\nLOAD\tK\t6\nMLT\tK\t7\nSEND\t-\t0\nSTOP\t-\t0\n");
//! let sheet = skimp::read_back(object, &mut sheet)?;
//! assert_eq!(sheet, b"SHEET\t0\t1\nSEND\t*\tK6\tK7\n");
//! let (mut state, mut output) = ([0; 28], [0; 4]);
//! let reply = skimp::run(object, &mut state, &mut output, 100);
//! assert_eq!((reply.number, reply.value, output), (20, 4, [0, 0, 0, 42]));
//! # Ok::<(), skimp::Refusal>(())
//! ```

use std::error::Error;
use std::fmt;

unsafe extern "C" {
    fn skimp_compile(
        source: *const u8,
        source_len: usize,
        object: *mut u8,
        object_len: usize,
    ) -> u64;
    fn skimp_read_back(
        object: *const u8,
        object_len: usize,
        sheet: *mut u8,
        sheet_len: usize,
    ) -> u64;
    fn skimp_run(
        object: *const u8,
        object_len: usize,
        state: *mut u8,
        state_len: usize,
        output: *mut u8,
        output_len: usize,
        budget: u32,
    ) -> u64;
}

/// The limits. A source over one of them is refused, and so is an object over one of the first three.
pub const MOST_VARIABLES: usize = 128;
pub const MOST_TEMPORARIES: usize = 32;
/// STOP included.
pub const MOST_ORDERS: usize = 2048;
/// Labels that are set, and the greatest number that one may have.
pub const MOST_LABELS: usize = 64;
pub const GREATEST_LABEL: usize = 9999;
/// IFs in each other, of a sheet too.
pub const MOST_LEVELS: usize = 16;
/// Comparisons of one IF, of a sheet too.
pub const MOST_COMPARISONS: usize = 16;
/// Cells of a statement, its end mark included.
pub const MOST_CELLS: usize = 256;
/// Bytes of a source.
pub const SOURCE_MOST: usize = 16_384;

/// A buffer of so many bytes is never too short for an object.
pub const OBJECT_MOST: usize = 37 + 18 * MOST_ORDERS;
/// A buffer of so many bytes is never too short for a sheet.
pub const SHEET_MOST: usize = 32 * MOST_ORDERS;

/// The bytes of a state before its words.
pub const STATE_HEADER: usize = 20;
/// The longest state of any object.
pub const STATE_MOST: usize = state_bytes(MOST_VARIABLES, MOST_TEMPORARIES);

/// The bytes of the states of an object with so many variables and temporaries: beside their words, the
/// frame has two link words.
pub const fn state_bytes(variables: usize, temporaries: usize) -> usize {
    STATE_HEADER + 4 * (variables + temporaries + 2)
}

/// A stack of so many bytes is enough for a call, as measured on its worst inputs, with a twentieth more at least.
pub const COMPILE_STACK_BYTES: usize = 85 * 1024;
pub const READ_BACK_STACK_BYTES: usize = 95 * 1024;
pub const RUN_STACK_BYTES: usize = 19 * 1024;
/// A stack of so many bytes is enough for every call.
pub const STACK_BYTES: usize = READ_BACK_STACK_BYTES;

/// What a call replies: document 01's number with the length of the text, with the steps, or with
/// the place of a refusal.
#[derive(Clone, Copy, Debug, PartialEq, Eq)]
pub struct Reply {
    pub number: u32,
    pub value: u32,
}

/// A call that was refused: document 01's number, and the place.
#[derive(Clone, Copy, Debug, PartialEq, Eq)]
pub struct Refusal {
    pub number: u32,
    pub place: u32,
}

impl fmt::Display for Refusal {
    fn fmt(&self, formatter: &mut fmt::Formatter<'_>) -> fmt::Result {
        write!(formatter, "refused with {} at {}", self.number, self.place)
    }
}

impl Error for Refusal {}

impl Reply {
    fn of(result: u64) -> Reply {
        Reply {
            number: (result >> 32) as u32,
            value: result as u32,
        }
    }

    /// The text at the front of the buffer, or the refusal.
    fn text(self, buffer: &[u8]) -> Result<&[u8], Refusal> {
        match self.number {
            0 => Ok(&buffer[..self.value as usize]),
            number => Err(Refusal {
                number,
                place: self.value,
            }),
        }
    }
}

/// Compiles a source, and gives its object: the text that now fills the front of the buffer. A
/// refused call leaves the buffer.
pub fn compile<'o>(source: &[u8], object: &'o mut [u8]) -> Result<&'o [u8], Refusal> {
    raw::compile(source, object).text(object)
}

/// Reads an object back, and gives the sheet that translates to it: the text that now fills the
/// front of the buffer. A refused call leaves the buffer.
pub fn read_back<'s>(object: &[u8], sheet: &'s mut [u8]) -> Result<&'s [u8], Refusal> {
    raw::read_back(object, sheet).text(sheet)
}

/// Runs an object from a state for at most `budget` steps. `state` becomes the last state, and
/// the numbers sent go to `output`. A refused call changes neither.
pub fn run(object: &[u8], state: &mut [u8], output: &mut [u8], budget: u32) -> Reply {
    // SAFETY: as in all functions here, each pointer goes with its slice's length and is not null,
    // also where the slice is empty. The slices do not overlap, since those that are written are
    // borrowed mutably. The archive reads and writes no other memory and keeps no pointer.
    Reply::of(unsafe {
        skimp_run(
            object.as_ptr(),
            object.len(),
            state.as_mut_ptr(),
            state.len(),
            output.as_mut_ptr(),
            output.len(),
            budget,
        )
    })
}

/// The calls that write a text, with the reply as it is. All of the buffer stays with the caller.
pub mod raw {
    use super::Reply;

    /// Writes the object of a source into the front of `object`.
    pub fn compile(source: &[u8], object: &mut [u8]) -> Reply {
        // SAFETY: see `run`.
        Reply::of(unsafe {
            super::skimp_compile(
                source.as_ptr(),
                source.len(),
                object.as_mut_ptr(),
                object.len(),
            )
        })
    }

    /// Writes the sheet of an object into the front of `sheet`.
    pub fn read_back(object: &[u8], sheet: &mut [u8]) -> Reply {
        // SAFETY: see `run`.
        Reply::of(unsafe {
            super::skimp_read_back(
                object.as_ptr(),
                object.len(),
                sheet.as_mut_ptr(),
                sheet.len(),
            )
        })
    }
}
