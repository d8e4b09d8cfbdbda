//! Mistakes in joined conditions.

use skimp_reference::condition::Condition;
use skimp_reference::sheet::conditions;
use skimp_reference::source::read;
use skimp_reference::{compile, Reply};

use super::found;

/// The source with one text in place of another.
fn replaced(source: &[u8], buffer: &mut [u8], [old, new]: [&str; 2]) -> Reply {
    let other = String::from_utf8_lossy(source).replace(old, new);
    match source.is_ascii() {
        true => compile(other.as_bytes(), buffer),
        false => compile(source, buffer),
    }
}

/// Both words mean the same.
fn and_is_or(source: &[u8], buffer: &mut [u8]) -> Reply {
    replaced(source, buffer, ["%AND", "%OR"])
}

/// Where a source is refused for its form, both words are taken for one.
fn takes_both_words(source: &[u8], buffer: &mut [u8]) -> Reply {
    let reply = compile(source, buffer);
    match reply.number {
        7 => {
            let other = and_is_or(source, buffer);
            if other.number == 0 {
                return other;
            }
            reply
        }
        _ => reply,
    }
}

/// The object's text with lines changed.
fn with_object(source: &[u8], buffer: &mut [u8], change: fn(&str) -> String) -> Reply {
    let mut text = vec![0; buffer.len()];
    let reply = compile(source, &mut text);
    if reply.number != 0 {
        return reply;
    }
    let lines = String::from_utf8_lossy(&text[..reply.value as usize]);
    let changed: String = lines.lines().map(change).collect();
    buffer[..changed.len()].copy_from_slice(changed.as_bytes());
    Reply {
        value: changed.len() as u32,
        ..reply
    }
}

fn leaves_out_cond(source: &[u8], buffer: &mut [u8]) -> Reply {
    with_object(source, buffer, |line| match line.starts_with("COND") {
        true => String::new(),
        false => format!("{line}\n"),
    })
}

/// COND stands before one comparison too.
fn cond_before_one(source: &[u8], buffer: &mut [u8]) -> Reply {
    with_object(source, buffer, |line| match line.starts_with("CMP") {
        true => format!("COND\tK\t1\n{line}\n"),
        false => format!("{line}\n"),
    })
}

/// The most comparisons that an IF of a source has, if it is accepted.
fn most_comparisons(source: &[u8]) -> Option<usize> {
    let sheet = read(source).ok()?;
    conditions(&sheet.lines).map(Condition::count).max()
}

fn too_few_comparisons(source: &[u8], buffer: &mut [u8]) -> Reply {
    match most_comparisons(source) {
        Some(16) => Reply {
            number: 11,
            value: 4,
        },
        _ => compile(source, buffer),
    }
}

/// Seventeen comparisons are refused as if they were no form.
fn comparisons_are_a_form(source: &[u8], buffer: &mut [u8]) -> Reply {
    let reply = compile(source, buffer);
    let words = source.windows(3).filter(|part| part == b"AND").count();
    let words = words + source.windows(2).filter(|part| part == b"OR").count();
    match reply.number == 11 && words >= 16 {
        true => Reply { number: 7, ..reply },
        false => reply,
    }
}

#[test]
fn wrong_conditions() {
    found("both words are one", and_is_or);
    found("two words at one level are taken", takes_both_words);
    found("COND is left out", leaves_out_cond);
    found("COND before one comparison", cond_before_one);
    found("16 comparisons", too_few_comparisons);
    found("the seventeenth comparison is 7", comparisons_are_a_form);
}
