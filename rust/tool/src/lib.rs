//! The command `skimp` over the proved archive: it reads files, lends them to the three calls, says
//! in words what these reply, and writes files. What is not proved of it is only that.

#![forbid(unsafe_code)]

mod arguments;
mod commands;
mod compare;
mod files;
mod help;
mod object;
mod refusal;
mod run;
pub mod statement;
mod trace;

use std::ffi::OsString;
use std::io::{self, Write};

use files::Place;

/// The exit statuses. Of these `compare` gives `REFUSED` too where the object is another's.
pub const DONE: u8 = 0;
pub const REFUSED: u8 = 1;
pub const FAILED: u8 = 2;
pub const FAULTED: u8 = 3;
pub const NOT_ENDED: u8 = 4;

/// What a command comes to.
struct Outcome {
    /// What goes to standard output.
    text: Vec<u8>,
    /// A file that is written, once the text is out.
    file: Option<(Place, Vec<u8>)>,
    status: u8,
}

/// Why a command could not be done.
enum Failure {
    /// A call was refused. The message says why and where.
    Refused(String),
    /// A file cannot be read or written, or an argument is wrong.
    Failed(String),
    /// Nobody reads standard output any more, so there is nobody to tell.
    Unread,
}

/// Does what the arguments ask, and gives the exit status.
pub fn main(arguments: impl Iterator<Item = OsString>) -> u8 {
    let done = arguments::parse(arguments)
        .and_then(commands::perform)
        .and_then(deliver);
    let (message, status) = match done {
        Ok(status) => return status,
        Err(Failure::Refused(message)) => (message, REFUSED),
        Err(Failure::Failed(message)) => (format!("skimp: {message}"), FAILED),
        Err(Failure::Unread) => return FAILED,
    };
    // where standard error is closed, the status alone tells
    let _ = writeln!(io::stderr(), "{message}");
    status
}

/// Prints the text, then writes the file. A run whose numbers could not be printed is not stored,
/// so that they come again.
fn deliver(outcome: Outcome) -> Result<u8, Failure> {
    files::print(&outcome.text)?;
    if let Some((place, bytes)) = &outcome.file {
        files::write(place, bytes)?;
    }
    Ok(outcome.status)
}
