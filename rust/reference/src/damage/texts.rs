//! Ways to damage an object text.

use crate::random::Random;

pub type Damage = fn(&mut Random, &mut Vec<u8>);

pub const DAMAGES: [(&str, Damage); 18] = [
    ("one bit turned", |random, text| turn_bit(random, text)),
    ("one byte replaced", |random, text| {
        replace_byte(random, text)
    }),
    ("one byte removed", remove_byte),
    ("one byte put in", put_in_byte),
    ("end cut off", cut_off),
    ("last newline removed", cut_newline),
    ("text behind the end", add_text),
    ("a line twice", repeat_line),
    ("a line removed", remove_line),
    ("two lines swapped", swap_lines),
    ("a number changed", change_number),
    ("a kind changed", change_kind),
    ("a name changed", change_name),
    ("a zero before a number", add_zero),
    ("a word just out of range", word_out_of_range),
    ("an address just out of range", address_out_of_range),
    ("STOP early", early_stop),
    ("no STOP at the end", no_stop),
];

/// Bytes that object texts have, and some that they have not.
pub const BYTES: &[u8] = b"\t\t\n\n 0123456789-+ADKBOXSTLEND\r\0\xFF";

fn turn_bit(random: &mut Random, text: &mut [u8]) {
    let at = random.below(text.len());
    text[at] ^= 1 << random.below(8);
}

fn replace_byte(random: &mut Random, text: &mut [u8]) {
    let at = random.below(text.len());
    text[at] = random.pick(BYTES);
}

fn remove_byte(random: &mut Random, text: &mut Vec<u8>) {
    text.remove(random.below(text.len()));
}

fn put_in_byte(random: &mut Random, text: &mut Vec<u8>) {
    text.insert(random.below(text.len() + 1), random.pick(BYTES));
}

fn cut_off(random: &mut Random, text: &mut Vec<u8>) {
    text.truncate(random.below(text.len()));
}

fn cut_newline(_: &mut Random, text: &mut Vec<u8>) {
    text.pop();
}

fn add_text(random: &mut Random, text: &mut Vec<u8>) {
    let extra: [&[u8]; 6] = [b"\n", b"\0", b" ", b"STOP\t-\t0\n", b"NEG\t-\t0\n", b"x"];
    text.extend(random.pick(&extra));
}

/// The lines after the header, each with its newline.
fn lines(text: &[u8]) -> (Vec<u8>, Vec<Vec<u8>>) {
    let mut lines = text
        .split_inclusive(|&byte| byte == b'\n')
        .map(<[u8]>::to_vec);
    (lines.next().unwrap_or_default(), lines.collect())
}

/// Changes the lines after the header, if there are any.
fn with_lines(text: &mut Vec<u8>, change: impl FnOnce(&mut Vec<Vec<u8>>)) {
    let (header, mut records) = lines(text);
    if !records.is_empty() {
        change(&mut records);
    }
    *text = [header, records.concat()].concat();
}

fn repeat_line(random: &mut Random, text: &mut Vec<u8>) {
    with_lines(text, |lines| {
        let at = random.below(lines.len());
        lines.insert(at, lines[at].clone());
    });
}

fn remove_line(random: &mut Random, text: &mut Vec<u8>) {
    with_lines(text, |lines| {
        lines.remove(random.below(lines.len()));
    });
}

fn swap_lines(random: &mut Random, text: &mut Vec<u8>) {
    with_lines(text, |lines| {
        let (a, b) = (random.below(lines.len()), random.below(lines.len()));
        lines.swap(a, b);
    });
}

fn set_line(random: &mut Random, text: &mut Vec<u8>, line: &str) {
    with_lines(text, |lines| {
        let at = random.below(lines.len());
        lines[at] = line.as_bytes().to_vec();
    });
}

/// Puts `new` in place of a field, or before it if `keep` is set.
fn set_field(text: &mut Vec<u8>, line: usize, field: usize, new: &[u8], keep: bool) {
    let mut lines: Vec<Vec<u8>> = parts(text, b'\n');
    let Some(line) = lines.get_mut(line) else {
        return;
    };
    let mut fields = parts(line, b'\t');
    if let Some(old) = fields.get_mut(field) {
        let rest: &[u8] = if keep { old } else { b"" };
        *old = [new, rest].concat();
    }
    *line = fields.join(&b'\t');
    *text = lines.join(&b'\n');
}

fn parts(text: &[u8], separator: u8) -> Vec<Vec<u8>> {
    let parts = text.split(|&byte| byte == separator);
    parts.map(<[u8]>::to_vec).collect()
}

/// A line of the text, header included.
fn some_line(random: &mut Random, text: &[u8]) -> usize {
    let newlines = text.iter().filter(|&&byte| byte == b'\n').count();
    random.below(newlines.max(1))
}

/// Texts in place of a number. Some are numbers over the limit that would do modulo 2^32 or 2^64.
#[rustfmt::skip]
const NUMBERS: [&[u8]; 32] = [
    b"0", b"1", b"2", b"31", b"33", b"64", b"65", b"127", b"128", b"129", b"1023", b"1024", b"1025",
    b"2047", b"2048", b"2049", b"2147483647", b"2147483648", b"4294967295", b"4294967296",
    b"4294967298", b"10000000000",
    b"18446744073709551616", b"18446744073709551618", b"99999999999999999999",
    b"", b"00", b"07", b"+1", b"-1", b" 1", b"1 ",
];

fn change_number(random: &mut Random, text: &mut Vec<u8>) {
    let line = some_line(random, text);
    let field = if line == 0 { random.between(1, 3) } else { 2 };
    set_field(text, line, field, random.pick(&NUMBERS), false);
}

fn change_kind(random: &mut Random, text: &mut Vec<u8>) {
    let kinds: [&[u8]; 9] = [b"D", b"K", b"A", b"-", b"d", b"", b"DD", b" ", b"B"];
    let line = some_line(random, text).max(1);
    set_field(text, line, 1, random.pick(&kinds), false);
}

fn change_name(random: &mut Random, text: &mut Vec<u8>) {
    let names: [&[u8]; 23] = [
        b"LOAD", b"STR", b"NEG", b"SEND", b"STOP", b"JMP", b"SKIP", b"SKI", b"BE", b"OR", b"COND",
        b"CON", b"CONDS", b"BOX", b"", b"load", b"LOA", b"LOADS", b"B", b"BL", b"SENDS", b"CALL",
        b" ADD",
    ];
    let line = some_line(random, text);
    set_field(text, line, 0, random.pick(&names), false);
}

fn add_zero(random: &mut Random, text: &mut Vec<u8>) {
    let line = some_line(random, text);
    let field = if line == 0 { random.between(1, 3) } else { 2 };
    set_field(text, line, field, b"0", true);
}

/// The three numbers of the header, if it has three.
fn header_numbers(text: &[u8]) -> Option<[u64; 3]> {
    let (header, _) = lines(text);
    let header = String::from_utf8(header).ok()?;
    let mut numbers = header.trim_end().split('\t').skip(1).map(str::parse);
    let mut next = || numbers.next()?.ok();
    Some([next()?, next()?, next()?])
}

fn word_out_of_range(random: &mut Random, text: &mut Vec<u8>) {
    if let Some([variables, temporaries, _]) = header_numbers(text) {
        let past = variables.saturating_add(temporaries).saturating_add(2);
        let word = random.pick(&[0, 1, past, past.saturating_add(1), 2147483647]);
        let name = random.pick(&["LOAD", "STR", "CMP", "SHL"]);
        set_line(random, text, &format!("{name}\tD\t{word}\n"));
    }
}

fn address_out_of_range(random: &mut Random, text: &mut Vec<u8>) {
    if let Some([_, _, orders]) = header_numbers(text) {
        let address = random.pick(&[orders, orders.saturating_add(1), 2147483647]);
        let name = random.pick(&["JMP", "SKIP", "BE", "BGE"]);
        set_line(random, text, &format!("{name}\tA\t{address}\n"));
    }
}

fn early_stop(random: &mut Random, text: &mut Vec<u8>) {
    set_line(random, text, "STOP\t-\t0\n");
}

fn no_stop(random: &mut Random, text: &mut Vec<u8>) {
    let line = random.pick(&["NEG\t-\t0\n", "JMP\tA\t0\n", "SKIP\tA\t0\n", "LOAD\tK\t7\n"]);
    with_lines(text, |lines| {
        let last = lines.len() - 1;
        lines[last] = line.as_bytes().to_vec();
    });
}
