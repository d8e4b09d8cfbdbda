//! Parts of an object's text, for what is shown of it. The archive has accepted or refused it.

/// The lines of a text without their newlines. What follows the last newline is a line too, unless
/// it is nothing.
fn lines(text: &[u8]) -> impl Iterator<Item = &[u8]> {
    let lines = text.split_inclusive(|&byte| byte == b'\n');
    lines.map(|line| line.strip_suffix(b"\n").unwrap_or(line))
}

/// V, T and N of the first line, where it has them.
#[derive(Clone, Copy)]
pub struct Header {
    pub variables: usize,
    pub temporaries: usize,
    pub orders: usize,
}

pub fn header(object: &[u8]) -> Option<Header> {
    let line = std::str::from_utf8(lines(object).next()?).ok()?;
    let mut fields = line.strip_prefix("BOX\t")?.split('\t');
    // no good header has a number that needs more bits
    let mut number = || Some(usize::from(fields.next()?.parse::<u16>().ok()?));
    Some(Header {
        variables: number()?,
        temporaries: number()?,
        orders: number()?,
    })
}

/// The first line.
pub fn first_line(object: &[u8]) -> Option<&[u8]> {
    lines(object).next()
}

/// The line of an order, from 0, where the text goes so far.
pub fn record(object: &[u8], order: usize) -> Option<&[u8]> {
    lines(object).nth(order + 1)
}

/// The line of the file, from 1, in which an order stands.
pub fn line_of(order: u32) -> u64 {
    u64::from(order) + 2
}

/// A line of object or sheet text, its fields parted by spaces.
pub fn spaced(line: &[u8]) -> String {
    String::from_utf8_lossy(line).replace('\t', " ")
}
