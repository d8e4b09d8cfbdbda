//! From the arguments to a command.

use crate::files::Place;
use crate::{help, Failure};
use std::ffi::{OsStr, OsString};
use std::path::PathBuf;

/// The steps of a run, and the numbers that it may send, where the user does not say.
pub const USUAL_STEPS: u32 = 1_000_000;
pub const USUAL_ROOM: u32 = 65_536;
/// The most numbers that a run may be lent room for: 64 MiB.
pub const MOST_ROOM: u32 = 16_777_216;

pub enum Command {
    Check {
        source: Place,
    },
    Compile {
        source: Place,
        output: Place,
        room: Option<u32>,
    },
    ReadBack {
        object: Place,
        output: Place,
        room: Option<u32>,
    },
    Run(Run),
    Compare {
        source: Place,
        object: Place,
    },
    /// Prints a text.
    Tell(String),
}

pub struct Run {
    pub object: Place,
    pub steps: u32,
    pub room: u32,
    pub state: Option<PathBuf>,
    pub trace: bool,
}

/// The options as they were given.
#[derive(Default)]
struct Options {
    output: Option<OsString>,
    steps: Option<OsString>,
    room: Option<OsString>,
    state: Option<OsString>,
    trace: bool,
    help: bool,
}

/// The options that each command takes.
const OPTIONS: [(&str, &[&str]); 6] = [
    ("check", &[]),
    ("compile", &["-o", "--room"]),
    ("readback", &["-o", "--room"]),
    ("run", &["--steps", "--room", "--state", "--trace"]),
    ("compare", &[]),
    ("help", &[]),
];

fn failed<T>(message: impl Into<String>) -> Result<T, Failure> {
    Err(Failure::Failed(message.into()))
}

/// The command that the arguments ask for.
pub fn parse(mut arguments: impl Iterator<Item = OsString>) -> Result<Command, Failure> {
    let Some(name) = arguments.next() else {
        return failed(format!("no command\n{}", help::USAGE));
    };
    match name.to_str() {
        Some("--version" | "-V") => return Ok(Command::Tell(help::version())),
        Some("--help" | "-h") => return Ok(Command::Tell(help::all())),
        _ => {}
    }
    let Some((name, allowed)) = OPTIONS.iter().find(|(command, _)| name == *command) else {
        let name = name.to_string_lossy();
        return failed(format!("{name} is no command\n{}", help::USAGE));
    };
    let (names, options) = split(name, allowed, arguments)?;
    if options.help {
        return Ok(Command::Tell(
            help::of(name).expect("a command").to_string(),
        ));
    }
    command(name, &names, options)
}

/// Parts the arguments behind the command into names of files and options.
fn split(
    command: &str,
    allowed: &[&str],
    mut arguments: impl Iterator<Item = OsString>,
) -> Result<(Vec<OsString>, Options), Failure> {
    let (mut names, mut options) = (Vec::new(), Options::default());
    while let Some(argument) = arguments.next() {
        let text = argument.to_str().unwrap_or("");
        if text == "--" {
            names.extend(arguments.by_ref());
        } else if !text.starts_with('-') || text == "-" {
            names.push(argument);
        } else {
            let (option, value) = match text.split_once('=') {
                Some((option, value)) if option.starts_with("--") => (option, Some(value)),
                _ => (text, None),
            };
            if !allowed.contains(&option) && !["--help", "-h"].contains(&option) {
                return failed(format!(
                    "{command} does not take {option}; see skimp help {command}"
                ));
            }
            options.take(option, value, &mut arguments)?;
        }
    }
    Ok((names, options))
}

impl Options {
    /// Takes an option. Its value is given behind `=`, or is the next argument.
    fn take(
        &mut self,
        option: &str,
        value: Option<&str>,
        rest: &mut impl Iterator<Item = OsString>,
    ) -> Result<(), Failure> {
        let slot = match option {
            "-o" => &mut self.output,
            "--steps" => &mut self.steps,
            "--room" => &mut self.room,
            "--state" => &mut self.state,
            flag => {
                if value.is_some() {
                    return failed(format!("{flag} takes no value"));
                }
                match flag {
                    "--trace" => self.trace = true,
                    _ => self.help = true,
                }
                return Ok(());
            }
        };
        if slot.is_some() {
            return failed(format!("{option} is given twice"));
        }
        *slot = value.map(OsString::from).or_else(|| rest.next());
        match slot {
            Some(_) => Ok(()),
            None => failed(format!("{option} wants a value")),
        }
    }
}

/// The command of a name with its files and options.
fn command(name: &str, names: &[OsString], options: Options) -> Result<Command, Failure> {
    if options.state.as_deref() == Some(OsStr::new("-")) {
        return failed("--state wants a file");
    }
    let output = || Place::of(options.output.as_deref().unwrap_or(OsStr::new("-")));
    let room = |most| number("--room", options.room.as_deref(), most);
    match (name, names) {
        ("check", [source]) => Ok(Command::Check {
            source: Place::of(source),
        }),
        ("compile", [source]) => Ok(Command::Compile {
            source: Place::of(source),
            output: output(),
            room: room(u32::MAX)?,
        }),
        ("readback", [object]) => Ok(Command::ReadBack {
            object: Place::of(object),
            output: output(),
            room: room(u32::MAX)?,
        }),
        ("run", [object]) => Ok(Command::Run(Run {
            object: Place::of(object),
            steps: number("--steps", options.steps.as_deref(), u32::MAX)?.unwrap_or(USUAL_STEPS),
            room: room(MOST_ROOM)?.unwrap_or(USUAL_ROOM),
            state: options.state.map(PathBuf::from),
            trace: options.trace,
        })),
        ("compare", [source, object]) if source == "-" && object == "-" => {
            failed("only one of the two can be standard input")
        }
        ("compare", [source, object]) => Ok(Command::Compare {
            source: Place::of(source),
            object: Place::of(object),
        }),
        ("help", []) => Ok(Command::Tell(help::all())),
        ("help", [command]) => match command.to_str().and_then(help::of) {
            Some(text) => Ok(Command::Tell(text.to_string())),
            None => failed(format!("{} is no command", command.to_string_lossy())),
        },
        _ => failed(format!(
            "{name} takes {}; see skimp help {name}",
            help::takes(name)
        )),
    }
}

/// The number that an option gives, from 0 to `most`.
fn number(option: &str, value: Option<&OsStr>, most: u32) -> Result<Option<u32>, Failure> {
    let Some(value) = value else {
        return Ok(None);
    };
    let text = value.to_string_lossy();
    let digits = !text.is_empty() && text.bytes().all(|byte| byte.is_ascii_digit());
    match text.parse() {
        Ok(number) if digits && number <= most => Ok(Some(number)),
        _ => failed(format!(
            "{option} wants a number from 0 to {most}, not {text}"
        )),
    }
}
