//! What each command does.

use crate::arguments::Command;
use crate::files::{self, Place};
use crate::{compare, object, refusal, run};
use crate::{Failure, Outcome, DONE};

pub fn perform(command: Command) -> Result<Outcome, Failure> {
    match command {
        Command::Check { source } => check(&source),
        Command::Compile {
            source,
            output,
            room,
        } => {
            hold_apart(&source, &output)?;
            Ok(written(output, compile(&source, room)?))
        }
        Command::ReadBack {
            object,
            output,
            room,
        } => {
            hold_apart(&object, &output)?;
            let text = files::read(&object)?;
            let sheet = read_back(&object.to_string(), &text, room)?;
            Ok(written(output, sheet))
        }
        Command::Run(run) => run::perform(&run),
        Command::Compare { source, object } => compare::perform(&source, &object),
        Command::Tell(text) => Ok(printed(text)),
    }
}

pub fn printed(text: String) -> Outcome {
    Outcome {
        text: text.into_bytes(),
        file: None,
        status: DONE,
    }
}

/// A slip of `-o` must not cost the file that is read.
fn hold_apart(input: &Place, output: &Place) -> Result<(), Failure> {
    if input.is_same(output) {
        let message = format!("{output} is read, so it cannot be written to");
        return Err(Failure::Failed(message));
    }
    Ok(())
}

fn written(place: Place, bytes: Vec<u8>) -> Outcome {
    Outcome {
        text: Vec::new(),
        file: Some((place, bytes)),
        status: DONE,
    }
}

/// A buffer of as many bytes as the user says, or one that is never too short. A longer one than
/// that changes nothing.
fn buffer(room: Option<u32>, most: usize) -> Vec<u8> {
    vec![0; room.map_or(most, |room| most.min(room as usize))]
}

/// The object of a source.
pub fn compile(source: &Place, room: Option<u32>) -> Result<Vec<u8>, Failure> {
    let text = files::read(source)?;
    let mut buffer = buffer(room, skimp::OBJECT_MOST);
    let object = skimp::compile(&text, &mut buffer);
    let name = source.to_string();
    let object = object.map_err(|why| Failure::Refused(refusal::of_source(&name, &text, why)))?;
    Ok(object.to_vec())
}

/// The sheet of an object.
pub fn read_back(name: &str, text: &[u8], room: Option<u32>) -> Result<Vec<u8>, Failure> {
    let mut buffer = buffer(room, skimp::SHEET_MOST);
    let sheet = skimp::read_back(text, &mut buffer);
    let sheet = sheet.map_err(|why| Failure::Refused(refusal::of_object(name, text, why)))?;
    Ok(sheet.to_vec())
}

fn check(source: &Place) -> Result<Outcome, Failure> {
    let object = compile(source, None)?;
    let header = object::header(&object).expect("an object has a header");
    Ok(printed(format!(
        "{source}: accepted, {}, {}, {}, object of {} bytes\n",
        counted(header.variables, "variable"),
        counted(header.temporaries, "temporary"),
        counted(header.orders, "order"),
        object.len()
    )))
}

/// A number with its noun: `1 order`, `2 orders`.
pub fn counted(number: usize, noun: &str) -> String {
    match (number, noun.strip_suffix('y')) {
        (1, _) => format!("1 {noun}"),
        (_, Some(stem)) => format!("{number} {stem}ies"),
        (_, None) => format!("{number} {noun}s"),
    }
}
