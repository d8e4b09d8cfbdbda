//! The longest texts, and the constants that say how long they can be.

use std::io::Write;
use std::process::{Command, Stdio};

use skimp_reference::agree::{Compared, COMPILE, READ_BACK};
use skimp_reference::limits;

use crate::{compile_call, read_back_call};

/// Holds what a C compiler takes constants of include/skimp.h for to numbers. Gives what it says where
/// they are others.
fn hold_header(constants: &[(&str, usize)]) -> Result<(), String> {
    let mut text = String::from("#include \"skimp.h\"\n");
    for (name, number) in constants {
        text += &format!("_Static_assert({name} == {number}, \"{name} is not {number}\");\n");
    }
    let folder = concat!(env!("CARGO_MANIFEST_DIR"), "/../../include");
    let compiler = std::env::var("CC").unwrap_or("cc".to_string());
    let mut child = Command::new(compiler)
        .args(["-std=c11", "-fsyntax-only", "-I", folder, "-x", "c", "-"])
        .stdin(Stdio::piped())
        .stderr(Stdio::piped())
        .spawn()
        .expect("a C compiler");
    let mut input = child.stdin.take().expect("standard input");
    input.write_all(text.as_bytes()).expect("the text is read");
    drop(input);
    let output = child.wait_with_output().expect("its end");
    match output.status.success() {
        true => Ok(()),
        false => Err(String::from_utf8_lossy(&output.stderr).into_owned()),
    }
}

#[test]
fn constants_of_the_header() {
    let held = hold_header(&[
        ("SKIMP_MOST_VARIABLES", skimp::MOST_VARIABLES),
        ("SKIMP_MOST_TEMPORARIES", skimp::MOST_TEMPORARIES),
        ("SKIMP_MOST_ORDERS", skimp::MOST_ORDERS),
        ("SKIMP_MOST_LABELS", skimp::MOST_LABELS),
        ("SKIMP_GREATEST_LABEL", skimp::GREATEST_LABEL),
        ("SKIMP_MOST_LEVELS", skimp::MOST_LEVELS),
        ("SKIMP_MOST_COMPARISONS", skimp::MOST_COMPARISONS),
        ("SKIMP_MOST_CELLS", skimp::MOST_CELLS),
        ("SKIMP_SOURCE_MOST", skimp::SOURCE_MOST),
        ("SKIMP_OBJECT_MOST", skimp::OBJECT_MOST),
        ("SKIMP_SHEET_MOST", skimp::SHEET_MOST),
        ("SKIMP_STATE_HEADER", skimp::STATE_HEADER),
        ("SKIMP_STATE_BYTES(2, 3)", skimp::state_bytes(2, 3)),
        ("SKIMP_STATE_MOST", skimp::STATE_MOST),
        ("SKIMP_COMPILE_STACK_BYTES", skimp::COMPILE_STACK_BYTES),
        ("SKIMP_READ_BACK_STACK_BYTES", skimp::READ_BACK_STACK_BYTES),
        ("SKIMP_RUN_STACK_BYTES", skimp::RUN_STACK_BYTES),
        ("SKIMP_STACK_BYTES", skimp::STACK_BYTES),
    ]);
    assert_eq!(held, Ok(()));
    // the comparison can fail
    let other = hold_header(&[("SKIMP_STATE_HEADER", 21)]);
    assert!(other.is_err_and(|says| says.contains("SKIMP_STATE_HEADER is not 21")));
    assert_eq!([skimp::OBJECT_MOST, skimp::SHEET_MOST], [36_901, 65_536]);
    assert_eq!(skimp::STATE_MOST, 668);
    for bytes in [skimp::COMPILE_STACK_BYTES, skimp::RUN_STACK_BYTES] {
        assert!(bytes <= skimp::STACK_BYTES);
    }
}

/// The wrapper's limits are those of the reference, each written from the papers by itself.
#[test]
fn limits_of_the_papers() {
    assert_eq!(skimp::MOST_VARIABLES, limits::MOST_VARIABLES as usize);
    assert_eq!(skimp::MOST_TEMPORARIES, limits::MOST_TEMPORARIES as usize);
    assert_eq!(skimp::MOST_ORDERS, limits::MOST_ORDERS);
    assert_eq!(skimp::MOST_LABELS, limits::MOST_LABELS);
    assert_eq!(skimp::GREATEST_LABEL, limits::GREATEST_LABEL as usize);
    assert_eq!(skimp::MOST_LEVELS, limits::MOST_LEVELS);
    assert_eq!(skimp::MOST_COMPARISONS, limits::MOST_COMPARISONS);
    assert_eq!(skimp::MOST_CELLS, limits::MOST_CELLS);
    assert_eq!(skimp::SOURCE_MOST, limits::MOST_SOURCE);
}

/// Buffers of the exact length, of one byte less, and of the most bytes.
fn rooms(length: usize, most: usize) -> Vec<usize> {
    vec![length - 1, length, length + 1, most]
}

/// Statements of as many orders on constants of ten digits as 256 cells hold, up to the most orders.
/// The constants are quoted, since that takes the fewest cells.
fn longest_source() -> String {
    let chain = |orders: usize| {
        let operations = "-'zzzz'".repeat(orders - 2);
        format!("V127='zzzz'{operations}\n")
    };
    let names = (0..skimp::MOST_VARIABLES).map(|number| format!("V{number}"));
    let names: Vec<String> = names.collect();
    let lists = names.chunks(32).map(|list| list.join(","));
    let lists: String = lists.map(|list| format!("%INTEGER {list}\n")).collect();
    // 32 temporaries, and 5 orders for each pair of brackets
    let nested = format!("V127={}\\1{}\n", "1-(".repeat(31), ")".repeat(31));
    let nested_orders = 31 * 5 + 2 + 1;
    let orders = skimp::MOST_ORDERS - 1 - nested_orders;
    let most = 36;
    let chains = chain(most).repeat(orders / most);
    let last = chain(orders % most);
    format!("%BEGIN\n{lists}{nested}{chains}{last}%ENDOFPROGRAM\n")
}

#[test]
fn longest_object() {
    let source = longest_source();
    let mut buffer = vec![0; skimp::OBJECT_MOST];
    let object = skimp::compile(source.as_bytes(), &mut buffer).expect("within the limits");
    let header = b"BOX\t128\t32\t2048\n";
    assert!(object.starts_with(header), "{source}");
    assert!(object.len() >= 33_000, "{} bytes", object.len());
    let mut compared = Compared::new(COMPILE, compile_call);
    let rooms = |length| rooms(length, skimp::OBJECT_MOST);
    assert_eq!(compared.check_rooms("longest", source.as_bytes(), rooms), 1);
}

/// One instruction of all orders, on operators of two characters and constants of ten digits. Its
/// object is the longest that has a sheet.
#[test]
fn longest_sheet() {
    let chain = "SHL\tK\t2147483647\n".repeat(2045);
    let first = "BOX\t128\t0\t2048\nLOAD\tK\t2147483647\n";
    let object = format!("{first}{chain}STR\tD\t129\nSTOP\t-\t0\n");
    assert!(object.len() <= skimp::OBJECT_MOST);
    assert!(object.len() >= 34_800, "{} bytes", object.len());
    let mut buffer = vec![0; skimp::SHEET_MOST];
    let sheet = skimp::read_back(object.as_bytes(), &mut buffer).expect("a sheet");
    assert!(sheet.len() >= 30_700, "{} bytes", sheet.len());
    let mut compared = Compared::new(READ_BACK, read_back_call);
    let rooms = |length| rooms(length, skimp::SHEET_MOST);
    assert_eq!(compared.check_rooms("longest", object.as_bytes(), rooms), 1);
}
