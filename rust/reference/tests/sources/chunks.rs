//! Statements by another method than the reference's: not byte by byte, but chunk by chunk, where a
//! chunk is a quoted text, a `%` with its letters, a comment, or another byte.

use skimp_reference::random::Random;
use skimp_reference::source::cells::{Statements, KEYWORD};
use skimp_reference::writing::exhaustive::kinds;
use skimp_reference::writing::source;

type Read = Vec<Result<Vec<u8>, u32>>;

const CONTINUATION: u8 = b'C' | KEYWORD;

/// How many bytes there are up to one of the ends, that one included.
fn through(bytes: &[u8], ends: &[u8]) -> Option<usize> {
    let place = bytes.iter().position(|byte| ends.contains(byte))?;
    Some(place + 1)
}

/// The statements up to the first that is refused.
fn by_chunks(source: &[u8]) -> Read {
    let mut statements = Read::new();
    let mut held = Vec::new();
    let mut rest = source;
    while let Some(&first) = rest.first() {
        let mut length = 1;
        match first {
            b'\'' => match through(&rest[1..], b"'") {
                Some(quoted) => {
                    length += quoted;
                    held.extend(&rest[..length]);
                }
                // quoted to the end of the source, which is 3 unless the cells are too many before
                None => {
                    let fits = held.len() + rest.len() <= 256;
                    statements.push(Err(if fits { 3 } else { 4 }));
                    return statements;
                }
            },
            b'%' => {
                let letters = rest[1..]
                    .iter()
                    .take_while(|byte| byte.is_ascii_alphabetic());
                length += letters.count();
                held.extend(
                    rest[1..length]
                        .iter()
                        .map(|byte| byte.to_ascii_uppercase() | KEYWORD),
                );
            }
            b' ' => {}
            b'!' if held.is_empty() => length = through(rest, b";\n").unwrap_or(rest.len()),
            // it takes a cell, whether it ends the statement or is dropped
            b';' | b'\n' if held.len() == 256 => {
                statements.push(Err(4));
                return statements;
            }
            b'\n' if held.last() == Some(&CONTINUATION) => drop(held.pop()),
            b';' | b'\n' if held.is_empty() => {}
            b';' | b'\n' => statements.push(Ok(std::mem::take(&mut held))),
            _ => held.push(first.to_ascii_uppercase()),
        }
        if held.len() > 256 {
            statements.push(Err(4));
            return statements;
        }
        rest = &rest[length..];
    }
    match held.last() {
        None => {}
        Some(&CONTINUATION) => statements.push(Err(3)),
        Some(_) if held.len() == 256 => statements.push(Err(4)),
        Some(_) => statements.push(Ok(held)),
    }
    statements
}

/// Holds the reference to this method. Gives whether the source has a statement or a refusal.
fn check(source: &[u8]) -> bool {
    let mut expected = Read::new();
    let mut statements = Statements::new(source);
    while let Some(statement) = statements.read() {
        let is_refused = statement.is_err();
        expected.push(statement.map(<[u8]>::to_vec));
        if is_refused {
            break;
        }
    }
    let got = by_chunks(source);
    let text = String::from_utf8_lossy(source);
    assert!(got == expected, "{text:?}: {got:?}, not {expected:?}");
    !got.is_empty()
}

#[test]
fn every_statement() {
    let mut count = 0;
    for kind in kinds() {
        kind.every_source(|source| count += usize::from(check(source)));
    }
    assert!(count >= 1_000_000, "{count}");
    let mut random = Random(43);
    for _ in 0..50_000 {
        check(&source(&mut random).1);
    }
}
