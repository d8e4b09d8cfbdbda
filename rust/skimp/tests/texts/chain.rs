//! Compile, read-back and run in a chain, held to the meaning on instructions: "For every k that it
//! reaches, the run with the count of the first k instructions as budget, where it fits that type,
//! reports that count as its steps and has its variables and numbers sent."

use skimp_reference::agree::{Compared, COMPILE, READ_BACK};
use skimp_reference::census::Census;
use skimp_reference::generate::Plan;
use skimp_reference::limits::MOST_SOURCE;
use skimp_reference::random::Random;
use skimp_reference::runs::Runs;
use skimp_reference::sheet::Sheet;
use skimp_reference::translate::{translate, Translation};
use skimp_reference::writing::spelling::Style;
use skimp_reference::writing::{program, spelled_sheet};

use crate::{compile_call, read_back_call, run_call};

struct Chain {
    compile: Compared,
    read_back: Compared,
    object: Vec<u8>,
    sheet: Vec<u8>,
    runs: Runs,
    census: Census,
}

impl Chain {
    fn new() -> Chain {
        Chain {
            compile: Compared::new(COMPILE, compile_call),
            read_back: Compared::new(READ_BACK, read_back_call),
            object: vec![0; skimp::OBJECT_MOST],
            sheet: vec![0; skimp::SHEET_MOST],
            runs: Runs::default(),
            census: Census::default(),
        }
    }

    /// Holds a source to the sheet that it was written from, by the archive's calls one after the
    /// other, and its runs to the sheet's meaning.
    fn hold(&mut self, name: &str, sheet: &Sheet, source: &[u8], room: usize) {
        let translation = translate(sheet).expect("within the limits");
        assert_eq!(self.compile.check(name, source), Ok(()), "{name}");
        let object = skimp::compile(source, &mut self.object).expect("it was accepted");
        assert_eq!(object, translation.text().as_bytes(), "{name}");
        assert_eq!(self.read_back.check(name, object), Ok(()), "{name}");
        let text = skimp::read_back(object, &mut self.sheet).expect("it was accepted");
        assert_eq!(text, sheet.text().as_bytes(), "{name}");
        self.run(name, sheet, &translation, room);
    }

    fn run(&mut self, name: &str, sheet: &Sheet, translation: &Translation, room: usize) {
        self.runs.hold(name, sheet, translation, room, run_call);
        self.census.add(sheet, translation);
    }
}

#[test]
fn from_small_sources() {
    let name = "small chains, seed 61";
    let mut random = Random(61);
    let mut chain = Chain::new();
    for _ in 0..12_000 {
        let (sheet, source) = spelled_sheet(&mut random);
        let room = random.between(0, 12);
        chain.hold(name, &sheet, &source, room);
    }
    assert_eq!(chain.runs.programs, 12_000, "{name}");
    assert!(chain.runs.runs >= 100_000, "{name}: {}", chain.runs.runs);
    chain.runs.every_way(name, 10);
    chain.census.every_form(name, 50);
    for depth in 0..=12 {
        let count = chain.census.with_depth(depth);
        assert!(count >= 2, "{name}: {count} programs with {depth} levels");
    }
}

/// Sheets of many orders, those that a source can have.
#[test]
fn from_large_sources() {
    let name = "large chains, seed 62";
    let mut random = Random(62);
    let mut chain = Chain::new();
    for _ in 0..400 {
        let sheet = Plan::large_program(&mut random);
        let Some(statements) = program::write(&mut random, &sheet) else {
            continue;
        };
        let source = Style::random(&mut random).source(&mut random, &statements);
        if source.len() <= MOST_SOURCE {
            let room = random.between(0, 12);
            chain.hold(name, &sheet, &source, room);
        }
    }
    let programs = chain.runs.programs;
    assert!(programs >= 100, "{name}: {programs} programs");
    for (orders, least) in [(1023, 5), (1024, 5), (1025, 5), (2048, 20)] {
        let count = chain.census.with_orders(orders);
        assert!(
            count >= least,
            "{name}: {count} programs with {orders} orders"
        );
    }
}

/// All variables are set and sent from the last to the first, so many of them as there is room for,
/// and jumps fill the program up to so many orders.
fn with_variables(count: usize, orders: usize) -> String {
    let name = |number: usize| format!("V{number}");
    let names: Vec<String> = (0..count).map(name).collect();
    let lists = names.chunks(32);
    let lists = lists.map(|list| format!("%INTEGER {}\n", list.join(",")));
    let sets = (0..count).map(|number| format!("V{number}={number}-V{}\n", count - 1 - number));
    let sends = (0..count).rev().map(|number| format!("SEND(V{number})\n"));
    let body = sets.chain(sends).collect::<String>();
    // five orders of each, and STOP
    let jumps = "->1\n".repeat(orders - 5 * count - 1);
    let lists = lists.collect::<String>();
    format!("%BEGIN\n{lists}{body}{jumps}1:\n%ENDOFPROGRAM\n")
}

/// A program whose jumps lead far: to the label that stands before an instruction of a number, or
/// behind the last.
fn with_far_label(count: usize, number: usize) -> String {
    let (before, behind) = (number - 1, count + 1 - number);
    let jumps = |count: usize| "->7\n".repeat(count);
    let (first, last) = (jumps(before), jumps(behind));
    format!("%BEGIN\n{first}7:\n{last}%ENDOFPROGRAM\n")
}

/// Jumps, and behind them groups in each other that end with the program, of so many orders with STOP
/// in all. A label behind each first part leads over all second parts to the end.
fn with_far_groups(levels: usize, orders: usize) -> String {
    let jumps = "->99\n".repeat(orders - 1 - 5 * levels - 1);
    let open = "%IF 1=1 %THEN %START\n".repeat(levels);
    let close = |level| format!("{level}:\n%FINISH %ELSE %START\n->1\n%FINISH\n");
    let closed: String = (1..=levels).map(close).collect();
    format!("%BEGIN\n{jumps}99:{open}->{levels}\n{closed}%ENDOFPROGRAM\n")
}

/// Programs of all variables and orders that there may be, of one less, and of about half of them.
#[test]
fn at_the_limits() {
    let name = "at the limits";
    let mut chain = Chain::new();
    let mut hold = |source: String, room: usize| {
        let sheet = skimp_reference::source::read(source.as_bytes());
        let sheet = sheet.unwrap_or_else(|refusal| panic!("{refusal:?}: {source}"));
        chain.hold(name, &sheet, source.as_bytes(), room);
    };
    for orders in [1023, 1024, 1025, 2047, 2048] {
        for variables in [63, 64, 65, 127, 128] {
            hold(with_variables(variables, orders), variables);
        }
        let count = orders - 1;
        for number in [1, 2, count / 2, 1022, 1023, count - 1, count, count + 1] {
            hold(with_far_label(count, number.min(count + 1)), 0);
        }
        for levels in [1, 2, 15, 16] {
            hold(with_far_groups(levels, orders), 0);
        }
    }
    let census = &chain.census;
    assert_eq!(census.with_orders(2048), 17, "{name}");
    assert_eq!(census.with_variables(128), 5, "{name}");
    assert_eq!(census.with_depth(16), 5, "{name}");
    assert!(census.with_instructions(2047) >= 8, "{name}");
}

/// Sheets whether a source can have them or not.
#[test]
fn from_sheets() {
    let name = "meaning, seed 24";
    let mut random = Random(24);
    let mut chain = Chain::new();
    for round in 0..2000 {
        let sheet = match round % 8 {
            0 => Plan::large_sheet(&mut random),
            1 => Plan::deep_sheet(&mut random),
            _ => Plan::small_sheet(&mut random),
        };
        let translation = translate(&sheet).expect("within the limits");
        let room = random.between(0, 12);
        chain.run(name, &sheet, &translation, room);
    }
    assert_eq!(chain.runs.programs, 2000, "{name}");
    assert!(chain.runs.runs >= 50_000, "{name}: {}", chain.runs.runs);
    chain.runs.every_way(name, 5);
    chain.census.every_form(name, 50);
}
