//! What `skimp help` says.

pub const USAGE: &str = "\
usage: skimp check SOURCE
       skimp compile SOURCE [-o OBJECT] [--room BYTES]
       skimp readback OBJECT [-o SHEET] [--room BYTES]
       skimp run OBJECT [--steps N] [--room N] [--state FILE] [--trace]
       skimp compare SOURCE OBJECT
       skimp help [COMMAND]
       skimp --version";

const ABOUT: &str = "\
SKIMP for the battery box: sources checked and compiled, objects read back, run and compared.

";

const REST: &str = "

In place of a file, - is standard input or output. A refusal is said on standard error with its
number in brackets; the manual has what to do about each.

exit status: 0 done; 1 refused, or compare found a difference; 2 a file or an argument is wrong;
             3 a run faulted; 4 a run used up its steps and has not ended
";

const CHECK: &str = "\
usage: skimp check SOURCE

Says whether a source is SKIMP within the limits, and how large its object is. Writes no file.
";

const COMPILE: &str = "\
usage: skimp compile SOURCE [-o OBJECT] [--room BYTES]

Writes the object of a source: to standard output, or to the file OBJECT, which appears whole or not
at all. Where the source is refused, a file that is there stays as it is.

  --room BYTES   lend a buffer of so many bytes; without it, every object fits. One that does not
                 fit is refused with 12
";

const READBACK: &str = "\
usage: skimp readback OBJECT [-o SHEET] [--room BYTES]

Writes the one sheet that translates to an object: to standard output, or to the file SHEET, which
appears whole or not at all.

  --room BYTES   lend a buffer of so many bytes; without it, every sheet fits. One that does not
                 fit is refused with 32
";

const RUN: &str = "\
usage: skimp run OBJECT [--steps N] [--room N] [--state FILE] [--trace]

Runs an object, and prints the numbers that it sent, its steps, how it ended, and its variables by
word: W2 is the first that was declared.

  --steps N      at most so many steps, 0 to 4294967295; without it, 1000000
  --room N       room for so many numbers in all, 0 to 16777216; without it, 65536
  --state FILE   go on from the state in FILE, and store the last state there; where there is no
                 such file, start. Give the object and the room of the runs before
  --trace        print a line for each step, for at most 10000 of them

exit status: 0 it stopped; 3 it faulted; 4 its steps are used up; 1 refused; 2 as always
";

const COMPARE: &str = "\
usage: skimp compare SOURCE OBJECT

Tells whether an object is the one that a source compiles to. If not, prints the sheets of both side
by side. The lines that differ are marked: | changed, < only the source has it, > only the object.

exit status: 0 it is; 1 it is not, or one of them is refused; 2 as always
";

const HELP: &str = "\
usage: skimp help [COMMAND]

Says what there is, or how a command is used. So does --help, or -h, behind a command.
";

pub fn all() -> String {
    [ABOUT, USAGE, REST].concat()
}

pub fn of(command: &str) -> Option<&'static str> {
    Some(match command {
        "check" => CHECK,
        "compile" => COMPILE,
        "readback" => READBACK,
        "run" => RUN,
        "compare" => COMPARE,
        "help" => HELP,
        _ => return None,
    })
}

/// The files that a command takes.
pub fn takes(command: &str) -> &'static str {
    match command {
        "check" | "compile" => "one SOURCE",
        "readback" | "run" => "one OBJECT",
        "compare" => "a SOURCE and an OBJECT",
        _ => "one COMMAND or none",
    }
}

pub fn version() -> String {
    format!("skimp {}\n", env!("CARGO_PKG_VERSION"))
}
