//! Run: the time for a step, of objects that both run from the start to their STOP.

use crate::inputs::{orders, Size, SIZES};
use crate::table::{Line, Table};
use std::time::{Duration, Instant};

const ROUNDS: usize = 7;
const LEAST_STEPS: u32 = 10_000_000;
const STOPPED: u32 = 20;

const LINK_WORDS: usize = 2;
const VARIABLES: usize = 2;
const TEMPORARIES: usize = 6;
/// The words of the two variables and of the first temporary.
const COUNTER: usize = LINK_WORDS;
const TOTAL: usize = LINK_WORDS + 1;
const TEMPORARY: usize = LINK_WORDS + VARIABLES;

struct Program {
    name: &'static str,
    /// How large it is, where there is one of another size beside it.
    size: Option<Size>,
    /// V and T.
    frame: [usize; 2],
    /// The text, with spaces for tabs.
    orders: Vec<String>,
    output: usize,
}

impl Program {
    /// The orders of `body`, `times` times over, with room for so many bytes of output.
    fn new(name: &'static str, body: Vec<String>, times: u32, output: usize) -> Program {
        Program {
            name,
            size: None,
            frame: [VARIABLES, TEMPORARIES],
            orders: repeat(body, times),
            output,
        }
    }

    fn text(&self) -> Vec<u8> {
        let [variables, temporaries] = self.frame;
        let header = format!("BOX {variables} {temporaries} {}", self.orders.len());
        let lines = [header].into_iter().chain(self.orders.iter().cloned());
        let text: String = lines.map(|line| line.replace(' ', "\t") + "\n").collect();
        text.into_bytes()
    }
}

/// The orders of `body`, `times` times over.
fn repeat(mut body: Vec<String>, times: u32) -> Vec<String> {
    body.push(format!("LOAD D {COUNTER}"));
    body.push("ADD K 1".to_string());
    body.push(format!("STR D {COUNTER}"));
    body.push(format!("LOAD D {COUNTER}"));
    body.push(format!("CMP K {times}"));
    let end = body.len() + 2;
    body.push(format!("BGE A {end}"));
    body.push("JMP A 0".to_string());
    body.push("STOP - 0".to_string());
    body
}

/// The orders of a balanced expression `depth` levels deep, with `used` temporaries in use.
fn expression(depth: usize, used: usize, orders: &mut Vec<String>) {
    const LEAVES: [&str; 4] = ["MLT K 3", "SHR K 3", "DIV K 7", "EXP K 2"];
    const NODES: [&str; 6] = ["ADD", "XOR", "SUB", "OR", "MLT", "AND"];
    let turn = orders.len();
    if depth == 0 {
        let word = [COUNTER, TOTAL][turn % 2];
        orders.push(format!("LOAD D {word}"));
        orders.push(LEAVES[turn % LEAVES.len()].to_string());
        return;
    }
    let (left, right) = (TEMPORARY + used, TEMPORARY + used + 1);
    expression(depth - 1, used, orders);
    orders.push(format!("STR D {left}"));
    expression(depth - 1, used + 1, orders);
    orders.push(format!("STR D {right}"));
    orders.push(format!("LOAD D {left}"));
    orders.push(format!("{} D {right}", NODES[turn % NODES.len()]));
}

/// Divisions of random words of both signs, by numbers and by words of both signs. They leave
/// nothing, less than half of the divisor, half of it or more, and what comes next cannot be
/// foreseen.
fn divisions() -> Vec<String> {
    let (short, odd, even) = (TEMPORARY, TEMPORARY + 1, TEMPORARY + 2);
    let (sum, part) = (TEMPORARY + 3, TEMPORARY + 4);
    // a random word, a shorter one, and divisors from -7 to 7 and from -14 to 14
    let words = format!(
        "LOAD D {TOTAL};MLT K 1103515245;ADD K 12345;STR D {TOTAL};SHR K 14;SUB K 131072;\
         STR D {short};AND K 14;SUB K 7;STR D {odd};ADD D {odd};STR D {even}"
    );
    let quotients = format!(
        "LOAD D {TOTAL};DIV K 2;ADD D {sum};DIV K 6;ADD D {TOTAL};DIV D {even};SUB D {short};\
         DIV K 10;ADD D {TOTAL};DIV D {odd};SUB D {sum};DIV D {even};ADD D {short};DIV K 1000;\
         STR D {part};LOAD D {short};DIV K 2;ADD D {part};DIV D {even};STR D {part};\
         LOAD D {short};MLT D {odd};DIV D {odd};ADD D {part};DIV K 4;ADD D {sum};STR D {sum}"
    );
    orders(&format!("{words};{quotients}"))
}

/// A loop of all orders that there may be, each on another of the first words.
fn long_loop(size: Size) -> Program {
    // the loop's own orders, STOP included
    let around = repeat(Vec::new(), 1).len();
    let orders = (0..size.orders + 1 - around).map(|place| {
        let word = LINK_WORDS + place % (VARIABLES + TEMPORARIES);
        match place % 3 {
            0 => format!("LOAD D {word}"),
            1 => format!("ADD K {place}"),
            _ => format!("STR D {}", word.max(TOTAL)),
        }
    });
    let times = LEAST_STEPS / size.orders as u32 + 1;
    Program {
        size: Some(size),
        ..Program::new("loop of all orders", orders.collect(), times, 0)
    }
}

/// A loop on the last words of the longest frame.
fn last_words(size: Size) -> Program {
    let frame = [size.variables, skimp::MOST_TEMPORARIES];
    let last = LINK_WORDS + frame[0] + frame[1] - 1;
    let variable = LINK_WORDS + size.variables - 1;
    let body = format!(
        "LOAD D {last};ADD D {variable};STR D {last};SUB K 3;XOR D {variable};STR D {variable}"
    );
    Program {
        size: Some(size),
        frame,
        ..Program::new("last words", orders(&body), 800_000, 0)
    }
}

fn programs() -> Vec<Program> {
    let mut sum = Vec::new();
    expression(TEMPORARIES - 1, 0, &mut sum);
    sum.push(format!("STR D {TOTAL}"));
    let sends = format!("LOAD D {COUNTER};SEND - 0;LOAD D {TOTAL};SEND - 0");
    let sends = orders(&format!("{sends};{sends}"));
    // a condition that holds in the first part of another, so that two SKIPs come in a row
    let groups = "LOAD D 2;CMP K 0;BLT A 12;LOAD D 2;CMP K 0;BLT A 9;LOAD D 2;STR D 3;SKIP A 11;\
                  LOAD K 0;STR D 3;SKIP A 14;LOAD K 1;STR D 3";
    // (1 %AND 2) %OR (3 %AND 4), each of them about a bit of the counter
    let joined =
        "COND K 4;LOAD D 2;AND K 1;CMP K 0;BNE A 9;LOAD D 2;AND K 2;CMP K 0;BE A 17;LOAD D 2;\
                  AND K 4;CMP K 0;BNE A 19;LOAD D 2;AND K 8;CMP K 0;BNE A 19;LOAD D 2;STR D 3";
    let mut programs = vec![
        Program::new("counting", Vec::new(), 2_000_000, 0),
        Program::new("expression", sum, 80_000, 0),
        Program::new("dividing", divisions(), 300_000, 0),
        Program::new("groups", orders(groups), 1_000_000, 0),
        Program::new("joined", orders(joined), 1_000_000, 0),
        Program::new("sending", sends, 1_000_000, 4 * 4_000_000),
    ];
    programs.extend(SIZES.map(long_loop));
    programs.extend(SIZES.map(last_words));
    programs
}

/// What a run leaves, and how long it took.
struct Run {
    number: u32,
    steps: u32,
    state: Vec<u8>,
    time: Duration,
}

/// Times one run from the start. Clearing the buffers has no part in the time.
fn measure(
    run: impl Fn(&[u8], &mut [u8], &mut [u8]) -> (u32, u32),
    text: &[u8],
    frame: [usize; 2],
    output: &mut [u8],
) -> Run {
    let mut state = vec![0; skimp::state_bytes(frame[0], frame[1])];
    output.fill(0);
    let start = Instant::now();
    let (number, steps) = run(text, &mut state, output);
    let time = start.elapsed();
    Run {
        number,
        steps,
        state,
        time,
    }
}

fn proved(text: &[u8], state: &mut [u8], output: &mut [u8]) -> (u32, u32) {
    let reply = skimp::run(text, state, output, u32::MAX);
    (reply.number, reply.value)
}

fn reference(text: &[u8], state: &mut [u8], output: &mut [u8]) -> (u32, u32) {
    let reply = skimp_reference::run(text, state, output, u32::MAX);
    (reply.number, reply.value)
}

/// Measures a program in both and prints its line.
fn line(table: &mut Table, program: &Program) {
    let text = program.text();
    let mut outputs = [vec![0; program.output], vec![0; program.output]];
    let mut least = [Duration::MAX; 2];
    let mut steps = 0;
    // the first round warms up
    for round in 0..=ROUNDS {
        let ours = measure(proved, &text, program.frame, &mut outputs[0]);
        let other = measure(reference, &text, program.frame, &mut outputs[1]);
        let name = program.name;
        assert_eq!(ours.number, STOPPED, "{name}: it did not stop");
        assert_eq!(ours.number, other.number, "{name}: the numbers differ");
        assert_eq!(ours.steps, other.steps, "{name}: the steps differ");
        assert!(ours.state == other.state, "{name}: the states differ");
        assert!(outputs[0] == outputs[1], "{name}: the outputs differ");
        assert!(ours.steps >= LEAST_STEPS, "{name}: too few steps");
        steps = ours.steps;
        if round > 0 {
            least[0] = least[0].min(ours.time);
            least[1] = least[1].min(other.time);
        }
    }
    table.line(&Line {
        name: program.name,
        size: program.size,
        count: steps as usize,
        least,
    });
}

/// Prints the table of run.
pub fn report() {
    let mut table = Table::new("run", "steps");
    for program in programs() {
        line(&mut table, &program);
    }
}
