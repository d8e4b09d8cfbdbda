//! A refusal in words: its number, its place, and the text that stands there.

use crate::object;
use crate::statement::{self, Statement};
use skimp::Refusal;
use std::fmt::Write;

/// Document 01's words for each refusal.
fn words(number: u32) -> String {
    let greatest = skimp::GREATEST_LABEL;
    match number {
        4 => format!("more than {} cells", skimp::MOST_CELLS),
        9 => format!("label 0 or over {greatest}, set twice, or never set"),
        11 => over_limit(),
        _ => without_limits(number).to_string(),
    }
}

/// The words of those that name no limit.
fn without_limits(number: u32) -> &'static str {
    match number {
        1 => "source too long",
        2 => "byte not allowed",
        3 => "source ends in quotes or in a continuation",
        5 => "unknown keyword",
        6 => "constant invalid",
        7 => "no such form, or out of order",
        8 => "name unknown, declared twice, or SEND misused",
        10 => "no %ENDOFPROGRAM",
        12 => "object buffer too short, all else well",
        13 => "group left open, or %FINISH without one",
        21 => "header not of the form or over a limit",
        22 => "not as many good lines as the header says",
        23 => "word outside the variables and temporaries",
        24 => "address behind the last order",
        25 => "last order not STOP, or STOP earlier",
        26 => "state does not fit the object",
        31 => "good object, but no sheet translates to it",
        32 => "sheet buffer too short",
        _ => "refused",
    }
}

fn over_limit() -> String {
    format!(
        "over {} variables, {} set labels, {} levels, {} comparisons, {} temporaries, or {} orders \
         with STOP",
        skimp::MOST_VARIABLES,
        skimp::MOST_LABELS,
        skimp::MOST_LEVELS,
        skimp::MOST_COMPARISONS,
        skimp::MOST_TEMPORARIES,
        thousands(skimp::MOST_ORDERS)
    )
}

/// A number with a comma before its last three digits: `2,048`.
fn thousands(number: usize) -> String {
    match number {
        1000.. => format!("{},{:03}", number / 1000, number % 1000),
        _ => number.to_string(),
    }
}

/// The refusal of a source: `heater.skimp:6: statement 5: unknown keyword [5]`, and the statement.
pub fn of_source(name: &str, source: &[u8], refusal: Refusal) -> String {
    let Refusal { number, place } = refusal;
    match number {
        2 => of_byte(name, source, refusal),
        10 if place == 0 => message(name, None, "no statement was read", refusal, &[]),
        10 => of_statement(
            name,
            source,
            &format!("statement {place}, the last"),
            refusal,
        ),
        3..=9 | 11 | 13 => of_statement(name, source, &format!("statement {place}"), refusal),
        _ => message(name, None, "", refusal, &[]),
    }
}

/// The refusal of an object: `heater.box:7: order 5: address behind the last order [24]`, and the order.
pub fn of_object(name: &str, object: &[u8], refusal: Refusal) -> String {
    let Refusal { number, place } = refusal;
    let line = object::line_of(place);
    match number {
        21 => {
            let shown = object::first_line(object).unwrap_or(b"");
            message(name, Some(1), "", refusal, shown)
        }
        22 => of_line(name, object, refusal),
        23..=25 => {
            let shown = object::record(object, place as usize).unwrap_or(b"");
            message(name, Some(line), &format!("order {place}"), refusal, shown)
        }
        _ => message(name, None, "", refusal, &[]),
    }
}

fn of_statement(name: &str, source: &[u8], place: &str, refusal: Refusal) -> String {
    match statement::find(source, refusal.place) {
        Some(Statement { line, text }) => message(name, Some(line as u64), place, refusal, text),
        None => message(name, None, place, refusal, &[]),
    }
}

/// The byte that is not allowed, in its line.
fn of_byte(name: &str, source: &[u8], refusal: Refusal) -> String {
    let place = refusal.place as usize;
    let start = source[..place].iter().rposition(|&byte| byte == b'\n');
    let start = start.map_or(0, |newline| newline + 1);
    let line = source[start..].split(|&byte| byte == b'\n').next();
    let line = line.expect("a part before the first newline");
    let at = format!(
        "byte {place}, column {}, is {}",
        place - start + 1,
        source[place]
    );
    let number = statement::line_of(source, place);
    message(name, Some(number as u64), &at, refusal, line)
}

/// The line of an object that is bad, missing, or too much.
fn of_line(name: &str, object: &[u8], refusal: Refusal) -> String {
    let place = refusal.place as usize;
    let orders = object::header(object).map_or(0, |header| header.orders);
    let shown = object::record(object, place);
    let at = match shown {
        None => format!("line {place} is missing"),
        Some(_) if place == orders => format!("text behind the last of {orders} lines"),
        Some(_) => format!("line {place}"),
    };
    let line = object::line_of(refusal.place);
    message(name, Some(line), &at, refusal, shown.unwrap_or(b""))
}

/// The most lines and the most characters of a line that are shown.
const MOST_LINES: usize = 8;
const MOST_CHARACTERS: usize = 160;

fn message(name: &str, line: Option<u64>, place: &str, refusal: Refusal, text: &[u8]) -> String {
    let mut message = name.to_string();
    if let Some(line) = line {
        write!(message, ":{line}").expect("a string takes all text");
    }
    for part in [place, &words(refusal.number)] {
        if !part.is_empty() {
            message += ": ";
            message += part;
        }
    }
    write!(message, " [{}]", refusal.number).expect("a string takes all text");
    let lines = text
        .split(|&byte| byte == b'\n')
        .filter(|line| !line.is_empty());
    for (count, line) in lines.enumerate() {
        if count == MOST_LINES {
            message += "\n    ..";
            break;
        }
        message += "\n    ";
        message += &shown(line);
    }
    message
}

/// A line as it can be shown on a terminal: every byte that is no character of ASCII as `\x..`.
fn shown(line: &[u8]) -> String {
    let mut text = String::new();
    for (count, &byte) in line.iter().enumerate() {
        if count == MOST_CHARACTERS {
            text += " ..";
            break;
        }
        match byte {
            32..=126 | b'\t' => text.push(char::from(byte)),
            _ => write!(text, "\\x{byte:02x}").expect("a string takes all text"),
        }
    }
    text
}
