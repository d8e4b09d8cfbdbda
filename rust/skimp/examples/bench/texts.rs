//! Compile and read-back: the time for a byte of the text that is read.

use std::time::{Duration, Instant};

use crate::inputs::Input;
use crate::table::{Line, Table};
use crate::{objects, sources};

const ROUNDS: usize = 30;
/// A round reads about so many bytes, so that the clock's own time does not count.
const BYTES: usize = 2 * skimp::SOURCE_MOST;
/// What the buffers hold before a call.
const UNTOUCHED: u8 = 0x5A;

/// Reads a text and writes another to the front of the buffer. Gives the number and the length.
type Call = fn(&[u8], &mut [u8]) -> (u32, u32);

/// The archive's call and the reference's.
type Calls = [Call; 2];

const COMPILE: Calls = [
    |source, object| {
        let reply = skimp::raw::compile(source, object);
        (reply.number, reply.value)
    },
    |source, object| {
        let reply = skimp_reference::compile(source, object);
        (reply.number, reply.value)
    },
];

const READ_BACK: Calls = [
    |object, sheet| {
        let reply = skimp::raw::read_back(object, sheet);
        (reply.number, reply.value)
    },
    |object, sheet| {
        let reply = skimp_reference::read_back(object, sheet);
        (reply.number, reply.value)
    },
];

/// Makes a call over and over. Gives what it replied last, and how long one took.
fn measure(call: Call, text: &[u8], buffer: &mut [u8]) -> ((u32, u32), Duration) {
    let times = 1 + BYTES / text.len();
    buffer.fill(UNTOUCHED);
    let mut reply = (0, 0);
    let start = Instant::now();
    for _ in 0..times {
        reply = call(text, buffer);
    }
    (reply, start.elapsed() / times as u32)
}

/// Measures an input in both, and prints its line. Gives the text that both wrote.
fn line(table: &mut Table, input: &Input, calls: Calls) -> Vec<u8> {
    let Input { name, size, text } = input;
    let mut buffers = [vec![0; skimp::SHEET_MOST], vec![0; skimp::SHEET_MOST]];
    let mut least = [Duration::MAX; 2];
    let mut written = 0;
    // the first round warms up
    for round in 0..=ROUNDS {
        let (ours, our_time) = measure(calls[0], text, &mut buffers[0]);
        let (other, other_time) = measure(calls[1], text, &mut buffers[1]);
        assert_eq!(ours.0, 0, "{name}: it was refused");
        assert_eq!(ours, other, "{name}: the replies differ");
        assert!(buffers[0] == buffers[1], "{name}: the texts differ");
        written = ours.1 as usize;
        if round > 0 {
            least = [least[0].min(our_time), least[1].min(other_time)];
        }
    }
    table.line(&Line {
        name,
        size: *size,
        count: text.len(),
        least,
    });
    buffers[0][..written].to_vec()
}

/// Prints the table of compile. Gives the objects, those that are alike once.
fn compile() -> Vec<Input> {
    let mut table = Table::new("compile", "bytes");
    let mut objects: Vec<Input> = Vec::new();
    for source in sources::all() {
        let text = line(&mut table, &source, COMPILE);
        if objects.iter().all(|other| other.text != text) {
            objects.push(Input { text, ..source });
        }
    }
    objects
}

/// Prints both tables. Read-back is measured on the objects that compile gave, and on others.
pub fn report() {
    let mut objects = compile();
    objects.extend(objects::all());
    println!();
    let mut table = Table::new("read-back", "bytes");
    for object in &objects {
        line(&mut table, object, READ_BACK);
    }
    println!();
}
