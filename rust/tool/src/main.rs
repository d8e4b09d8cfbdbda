use std::env;
use std::process::ExitCode;

fn main() -> ExitCode {
    ExitCode::from(skimp_tool::main(env::args_os().skip(1)))
}
