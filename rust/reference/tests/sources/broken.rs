//! Readers with a mistake each, which the comparison must find.

mod conditions;

use skimp_reference::agree::{Call, Compared, COMPILE};
use skimp_reference::random::Random;
use skimp_reference::source::read;
use skimp_reference::translate::{translate, Translation};
use skimp_reference::writing::source;
use skimp_reference::{compile, Reply};

/// Among how many random sources the mistake must be found.
const SOURCES: usize = 100_000;

/// Holds the comparison to finding a reader's mistake, and to making the source shorter that shows
/// it.
fn found(name: &str, reader: Call) {
    let mut random = Random(42);
    let mut compared = Compared::new(COMPILE, reader);
    let mut sources = (0..SOURCES).map(|_| source(&mut random).1);
    let source = sources.find(|source| compared.read(source).is_err());
    let source = source.unwrap_or_else(|| panic!("{name}: not found"));
    // one of thousands of bytes takes long
    if source.len() < 1000 {
        let short = compared.shorten(&source);
        assert!(compared.read(&short).is_err(), "{name}: shortened");
        assert!(short.len() <= source.len(), "{name}: shortened");
    }
}

/// The place of one refusal is one too high.
fn wrong_place<const NUMBER: u32>(source: &[u8], buffer: &mut [u8]) -> Reply {
    let reply = compile(source, buffer);
    Reply {
        value: reply.value + u32::from(reply.number == NUMBER),
        ..reply
    }
}

#[test]
fn wrong_places() {
    let readers: [Call; 14] = [
        wrong_place::<0>,
        wrong_place::<1>,
        wrong_place::<2>,
        wrong_place::<3>,
        wrong_place::<4>,
        wrong_place::<5>,
        wrong_place::<6>,
        wrong_place::<7>,
        wrong_place::<8>,
        wrong_place::<9>,
        wrong_place::<10>,
        wrong_place::<11>,
        // 12 is the buffer's, which is never too short here
        wrong_place::<0>,
        wrong_place::<13>,
    ];
    for (number, reader) in readers.into_iter().enumerate() {
        found(&format!("the place of {number}"), reader);
    }
}

/// One refusal is taken for another.
fn wrong_number<const NUMBER: u32, const OTHER: u32>(source: &[u8], buffer: &mut [u8]) -> Reply {
    let reply = compile(source, buffer);
    match reply.number {
        number if number == NUMBER => Reply {
            number: OTHER,
            ..reply
        },
        _ => reply,
    }
}

#[test]
fn wrong_numbers() {
    let readers: [Call; 13] = [
        wrong_number::<1, 2>,
        wrong_number::<2, 1>,
        wrong_number::<3, 4>,
        wrong_number::<4, 3>,
        wrong_number::<5, 6>,
        wrong_number::<6, 5>,
        wrong_number::<7, 8>,
        wrong_number::<8, 7>,
        wrong_number::<9, 11>,
        wrong_number::<10, 7>,
        wrong_number::<11, 9>,
        wrong_number::<13, 7>,
        wrong_number::<13, 9>,
    ];
    for (place, reader) in readers.into_iter().enumerate() {
        found(&format!("number {}", place + 1), reader);
    }
}

/// "Refused calls write nothing."
fn writes_when_refused(source: &[u8], buffer: &mut [u8]) -> Reply {
    let reply = compile(source, buffer);
    if reply.number == 11 {
        buffer[0] = b'S';
    }
    reply
}

/// "the bytes behind stay"
fn writes_behind(source: &[u8], buffer: &mut [u8]) -> Reply {
    let reply = compile(source, buffer);
    if reply.number == 0 {
        buffer[reply.value as usize] = 0;
    }
    reply
}

fn writes_at_the_end(source: &[u8], buffer: &mut [u8]) -> Reply {
    let last = buffer.len() - 1;
    buffer[last] = 0;
    compile(source, buffer)
}

fn leaves_the_last_newline(source: &[u8], buffer: &mut [u8]) -> Reply {
    let kept = buffer[0];
    let reply = compile(source, buffer);
    if reply.number == 0 {
        buffer[reply.value as usize - 1] = kept;
    }
    reply
}

#[test]
fn wrong_writing() {
    found("writes when it refuses", writes_when_refused);
    found("writes behind the text", writes_behind);
    found("writes at the buffer's end", writes_at_the_end);
    found("leaves the last newline", leaves_the_last_newline);
}

/// The source with its bytes outside quotes, or those inside, changed one by one.
fn changed(source: &[u8], inside: bool, change: fn(u8) -> Option<u8>) -> Vec<u8> {
    let mut quoted = false;
    let mut bytes = Vec::new();
    for &byte in source {
        quoted ^= byte == b'\'';
        match quoted == inside {
            true => bytes.extend(change(byte)),
            false => bytes.push(byte),
        }
    }
    bytes
}

/// "listing line 483 would capitalise it"
fn capitals_in_quotes(source: &[u8], buffer: &mut [u8]) -> Reply {
    let capital = |byte: u8| Some(byte.to_ascii_uppercase());
    compile(&changed(source, true, capital), buffer)
}

/// Spaces do not end the marking of keyword letters.
fn spaces_mark_on(source: &[u8], buffer: &mut [u8]) -> Reply {
    let other = |byte: u8| (byte != b' ').then_some(byte);
    compile(&changed(source, false, other), buffer)
}

/// A byte that is not allowed is not found after the end of the program.
fn stops_at_the_end(source: &[u8], buffer: &mut [u8]) -> Reply {
    let end = b"%ENDOFPROGRAM\n";
    let place = source.windows(end.len()).position(|part| part == end);
    let length = place.map_or(source.len(), |place| place + end.len());
    compile(&source[..length], buffer)
}

/// The end of the source counts as no newline.
fn last_line_lost(source: &[u8], buffer: &mut [u8]) -> Reply {
    let ends = |byte: &u8| *byte == b'\n' || *byte == b';';
    let length = source.iter().rposition(ends).map_or(0, |place| place + 1);
    compile(&source[..length], buffer)
}

/// `%C` goes on only right before its newline.
fn spaces_stop_continuation(source: &[u8], buffer: &mut [u8]) -> Reply {
    let mut source = source.to_vec();
    for place in 0..source.len().saturating_sub(3) {
        if source[place..].starts_with(b"%C \n") {
            source[place + 3] = b';';
        }
    }
    compile(&source, buffer)
}

#[test]
fn wrong_bytes() {
    found("capitals in quotes", capitals_in_quotes);
    found("spaces mark on", spaces_mark_on);
    found("stops at the end", stops_at_the_end);
    found("the last line lost", last_line_lost);
    found("spaces stop continuation", spaces_stop_continuation);
}

/// Refuses what the reference accepts, if `test` holds.
fn refusing(source: &[u8], buffer: &mut [u8], test: fn(&Translation) -> bool) -> Reply {
    let translation = read(source).map(|sheet| translate(&sheet).expect("within the limits"));
    if translation.as_ref().is_ok_and(test) {
        return Reply {
            number: 11,
            value: 2,
        };
    }
    compile(source, buffer)
}

fn too_few_variables(source: &[u8], buffer: &mut [u8]) -> Reply {
    refusing(source, buffer, |translation| translation.variables == 128)
}

fn half_the_variables(source: &[u8], buffer: &mut [u8]) -> Reply {
    refusing(source, buffer, |translation| translation.variables == 65)
}

fn too_few_temporaries(source: &[u8], buffer: &mut [u8]) -> Reply {
    refusing(source, buffer, |translation| translation.temporaries == 32)
}

fn too_few_orders(source: &[u8], buffer: &mut [u8]) -> Reply {
    refusing(source, buffer, |translation| {
        translation.orders.len() == 2048
    })
}

fn half_the_orders(source: &[u8], buffer: &mut [u8]) -> Reply {
    refusing(source, buffer, |translation| {
        translation.orders.len() == 1025
    })
}

fn too_short_source(source: &[u8], buffer: &mut [u8]) -> Reply {
    if source.len() == 16_384 {
        return Reply {
            number: 1,
            value: 0,
        };
    }
    compile(source, buffer)
}

#[test]
fn wrong_limits() {
    found("128 variables", too_few_variables);
    found("65 variables", half_the_variables);
    found("32 temporaries", too_few_temporaries);
    found("2,048 orders", too_few_orders);
    found("1,025 orders", half_the_orders);
    found("16,384 bytes", too_short_source);
}

/// The source with its statements changed, where they end with a newline.
fn with_lines(source: &[u8], change: fn(&str) -> String) -> Vec<u8> {
    match std::str::from_utf8(source) {
        Ok(text) => change(text).into_bytes(),
        Err(_) => source.to_vec(),
    }
}

/// The jump over an ELSE is a JMP, as it was without groups.
fn jumps_over_else(source: &[u8], buffer: &mut [u8]) -> Reply {
    let mut text = vec![0; buffer.len()];
    let reply = compile(source, &mut text);
    if reply.number != 0 {
        return reply;
    }
    let text = String::from_utf8_lossy(&text[..reply.value as usize]).replace("SKIP", "JMP");
    buffer[..text.len()].copy_from_slice(text.as_bytes());
    Reply {
        value: text.len() as u32,
        ..reply
    }
}

/// A label behind a first part leads to the second part.
fn leads_to_second_part(source: &[u8], buffer: &mut [u8]) -> Reply {
    let moved = with_lines(source, |text| {
        let mut lines: Vec<&str> = text.split('\n').collect();
        for place in 1..lines.len() {
            let is_label = lines[place - 1].strip_suffix(':').is_some_and(|label| {
                !label.is_empty() && label.bytes().all(|byte| byte.is_ascii_digit())
            });
            if is_label && lines[place].replace([' ', '%'], "") == "FINISHELSESTART" {
                lines.swap(place - 1, place);
            }
        }
        lines.join("\n")
    });
    compile(&moved, buffer)
}

/// An empty group is taken, as if it were not there.
fn takes_empty_groups(source: &[u8], buffer: &mut [u8]) -> Reply {
    let filled = with_lines(source, |text| {
        text.replace("%THENSTART\n%FINISH\n", "%THENSTART\nSEND(1)\n%FINISH\n")
    });
    compile(&filled, buffer)
}

/// The seventeenth level is refused as if it were no form.
fn levels_are_a_form(source: &[u8], buffer: &mut [u8]) -> Reply {
    let reply = compile(source, buffer);
    let levels = source.windows(5).filter(|part| part == b"START").count();
    match reply.number == 11 && levels > 16 {
        true => Reply { number: 7, ..reply },
        false => reply,
    }
}

/// A label that is never set is found before a group that is open.
fn finds_labels_first(source: &[u8], buffer: &mut [u8]) -> Reply {
    let reply = compile(source, buffer);
    if reply.number != 13 {
        return reply;
    }
    let closed = with_lines(source, |text| {
        text.replace("%ENDOFPROGRAM", "%FINISH\n%ENDOFPROGRAM")
    });
    let other = compile(&closed, buffer);
    match other.number {
        9 => other,
        _ => reply,
    }
}

#[test]
fn wrong_groups() {
    found("a JMP over an ELSE", jumps_over_else);
    found("a label leads to the second part", leads_to_second_part);
    found("empty groups are taken", takes_empty_groups);
    found("the seventeenth level is 7", levels_are_a_form);
    found("9 comes before 13", finds_labels_first);
}
