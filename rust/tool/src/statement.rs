//! Where a statement stands in its source, so that a refusal can show it. Nothing but what is shown
//! depends on it.

/// A statement of a source: its first line, from 1, and its text as it is typed.
#[derive(Clone, Copy, Debug, PartialEq, Eq)]
pub struct Statement<'s> {
    pub line: usize,
    pub text: &'s [u8],
}

/// The statement of a number, from 1: "a statement of nothing is skipped". One that the source's end
/// cuts off goes up to there.
pub fn find(source: &[u8], number: u32) -> Option<Statement<'_>> {
    let mut reader = Reader::default();
    let mut found = 0;
    for place in 0..=source.len() {
        // the end of the source ends a statement, whatever it holds
        let ended = match source.get(place) {
            Some(&byte) => reader.take(place, byte),
            None => true,
        };
        if !ended {
            continue;
        }
        if !reader.cells.is_empty() {
            found += 1;
            if found == number {
                return Some(reader.statement(source, place));
            }
        }
        reader = Reader::default();
    }
    None
}

/// A cell of a statement that is being read.
#[derive(Clone, Copy, PartialEq, Eq)]
enum Cell {
    /// A keyword letter C.
    KeywordC,
    Other,
}

/// A statement as far as it has been read.
#[derive(Default)]
struct Reader {
    /// The place of its first byte that is not a space.
    start: Option<usize>,
    cells: Vec<Cell>,
    /// Only letters have come since a `%`.
    shifted: bool,
    quoted: bool,
    in_comment: bool,
}

impl Reader {
    /// Takes a byte. Gives whether it ends the statement.
    fn take(&mut self, place: usize, byte: u8) -> bool {
        let ends_line = byte == b'\n' || byte == b';';
        if self.in_comment {
            self.in_comment = !ends_line;
            return false;
        }
        if self.quoted {
            self.quoted = byte != b'\'';
            self.cells.push(Cell::Other);
            return false;
        }
        let is_keyword = self.shifted && byte.is_ascii_alphabetic();
        self.shifted = is_keyword || byte == b'%';
        if byte == b'\n' && self.cells.last() == Some(&Cell::KeywordC) {
            self.cells.pop();
            return false;
        }
        if !ends_line {
            self.take_inside(place, byte, is_keyword);
        }
        ends_line
    }

    /// Takes a byte that stands outside quotes and comments and ends nothing.
    fn take_inside(&mut self, place: usize, byte: u8, is_keyword: bool) {
        if byte == b'!' && self.cells.is_empty() {
            self.in_comment = true;
            self.start = None;
            return;
        }
        if byte != b' ' {
            self.start.get_or_insert(place);
        }
        match byte {
            b' ' | b'%' => {}
            b'C' | b'c' if is_keyword => self.cells.push(Cell::KeywordC),
            _ => {
                self.quoted = byte == b'\'';
                self.cells.push(Cell::Other);
            }
        }
    }

    /// The statement that ends before a place.
    fn statement<'s>(&self, source: &'s [u8], end: usize) -> Statement<'s> {
        let start = self
            .start
            .expect("a statement with a cell has a first byte");
        let text = &source[start..end];
        let length = text.iter().rposition(|&byte| byte != b' ');
        Statement {
            line: line_of(source, start),
            text: &text[..length.map_or(0, |last| last + 1)],
        }
    }
}

/// The line that a place stands in, from 1.
pub fn line_of(source: &[u8], place: usize) -> usize {
    1 + source[..place]
        .iter()
        .filter(|&&byte| byte == b'\n')
        .count()
}
