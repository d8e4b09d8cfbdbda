//! The stack that a call needs: measured on a painted one, and tried on one of just the bytes that
//! include/skimp.h names, with memory below it that no one may touch.
#![cfg(all(target_arch = "x86_64", target_os = "linux"))]

mod inputs;
mod region;

use std::os::unix::process::ExitStatusExt;
use std::process::{Command, ExitStatus};

use inputs::{Call, CALLS};
use region::Region;

const SEGMENTATION_FAULT: i32 = 11;

/// Each call needs less.
const MOST_BYTES: usize = 96 * 1024;

/// Names the call and the bytes of stack in the environment of the process that tries them.
const CALL: &str = "SKIMP_STACK_CALL";
const BYTES: &str = "SKIMP_STACK_BYTES";

/// What a call writes to.
struct Buffers {
    text: Vec<u8>,
    state: Vec<u8>,
    output: Vec<u8>,
}

impl Buffers {
    fn new() -> Buffers {
        Buffers {
            text: vec![0; skimp::SHEET_MOST],
            state: Vec::new(),
            output: vec![0; 64],
        }
    }

    /// Makes a call on a stack.
    fn call(&mut self, call: Call, input: &[u8], stack: &Region) -> skimp::Reply {
        let header = input.split(|byte| b"\t\n".contains(byte));
        let number = |field: &[u8]| String::from_utf8_lossy(field).parse().unwrap_or(0);
        let frame: usize = header.skip(1).take(2).map(number).sum();
        self.state.clear();
        self.state.resize(skimp::state_bytes(frame, 0), 0);
        let mut reply = None;
        stack.call(&mut || {
            reply = Some(match call {
                Call::Compile => skimp::raw::compile(input, &mut self.text),
                Call::ReadBack => skimp::raw::read_back(input, &mut self.text),
                Call::Run => skimp::run(input, &mut self.state, &mut self.output, 5000),
            });
        });
        reply.expect("the function was called")
    }
}

/// The most stack that a call needs for any of the inputs.
fn most_used(call: Call) -> usize {
    let mut buffers = Buffers::new();
    let mut most = (0, 0, Vec::new());
    let mut stack = Region::new(2 * call.stack_bytes());
    let inputs = call.inputs();
    let count = inputs.len();
    for input in inputs {
        let reply = buffers.call(call, &input, &stack);
        let used = stack.used_and_painted();
        if used > most.0 {
            most = (used, reply.number, input);
        }
    }
    let (used, number, input) = most;
    let input = String::from_utf8_lossy(&input).replace('\n', "; ");
    println!("{call:?}: {used} bytes among {count}, number {number}: {input:.300}");
    used
}

/// What the header names is more than was needed, by a twentieth at least and a quarter at most.
#[test]
fn measured() {
    for call in CALLS {
        let (used, named) = (most_used(call), call.stack_bytes());
        let enough = used + used / 20;
        let says = format!("{call:?}: {used} bytes used, {named} named");
        assert!(named < MOST_BYTES, "more than the call is to need: {says}");
        assert!(enough <= named, "too few are named: {says}");
        // otherwise the worst input is missing here, or the name is old
        let too_many = used + used / 4;
        assert!(named <= too_many, "too many are named: {says}");
    }
}

/// Makes a call with all inputs, in a process of its own, on a stack of so many bytes.
fn tried(call: Call, bytes: usize) -> ExitStatus {
    let tests = std::env::current_exe().expect("this program");
    let mut command = Command::new(tests);
    command.args(["--exact", "on_its_own", "--ignored", "--test-threads=1"]);
    command.env(CALL, format!("{call:?}"));
    command.env(BYTES, bytes.to_string());
    command.output().expect("it runs").status
}

#[test]
fn enough() {
    for call in CALLS {
        let status = tried(call, call.stack_bytes());
        assert!(status.success(), "{call:?}: {status}");
    }
}

/// Half the bytes are not enough: a call that leaves its stack is found.
#[test]
fn too_few() {
    for call in CALLS {
        let half = call.stack_bytes() / 2;
        let signal = tried(call, half).signal();
        assert_eq!(signal, Some(SEGMENTATION_FAULT), "{call:?}: {half} bytes");
    }
}

#[test]
#[ignore = "the tests above run it in a process of its own"]
fn on_its_own() {
    let Ok(name) = std::env::var(CALL) else {
        return;
    };
    let bytes = std::env::var(BYTES).expect("the bytes of stack");
    let call = CALLS.into_iter().find(|call| format!("{call:?}") == name);
    let call = call.expect("a call");
    let stack = Region::new(bytes.parse().expect("a number"));
    let mut buffers = Buffers::new();
    for input in call.inputs() {
        buffers.call(call, &input, &stack);
    }
}
