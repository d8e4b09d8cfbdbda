//! From bytes to statements: the cells that each statement holds.

use super::{SOURCE_ENDS_EARLY, TOO_MANY_CELLS};
use crate::limits::MOST_CELLS;

/// "Each byte kept is a cell, quotes included." This bit, which no allowed byte has, marks a
/// keyword letter.
pub const KEYWORD: u8 = 128;

/// The statements of a source in order, without those of nothing.
pub struct Statements<'s> {
    source: &'s [u8],
    /// The place of the next byte; the source's length for the newline its end counts as.
    place: usize,
    /// The statement as far as it has been read.
    cells: [u8; MOST_CELLS],
    length: usize,
    /// Only letters have come since a `%`.
    shifted: bool,
    quoted: bool,
}

/// Whether a byte ended the statement.
enum Taken {
    More,
    End,
}

impl<'s> Statements<'s> {
    pub fn new(source: &'s [u8]) -> Statements<'s> {
        Statements {
            source,
            place: 0,
            cells: [0; MOST_CELLS],
            length: 0,
            shifted: false,
            quoted: false,
        }
    }

    /// The cells of the next statement, or the number of its refusal. Nothing is to be read behind
    /// a refusal.
    pub fn read(&mut self) -> Option<Result<&[u8], u32>> {
        self.length = 0;
        while self.place <= self.source.len() {
            let taken = match self.source.get(self.place) {
                Some(&byte) if self.quoted => self.take_quoted(byte),
                Some(&byte) => self.take_unquoted(byte),
                None => self.take_end(),
            };
            self.place += 1;
            match taken {
                Err(refusal) => return Some(Err(refusal)),
                // "a statement of nothing is skipped"
                Ok(Taken::End) if self.length > 0 => return Some(Ok(&self.cells[..self.length])),
                Ok(_) => {}
            }
        }
        None
    }

    /// "Text between quotes stays as typed."
    fn take_quoted(&mut self, byte: u8) -> Result<Taken, u32> {
        self.quoted = byte != b'\'';
        self.keep(byte)
    }

    fn take_unquoted(&mut self, byte: u8) -> Result<Taken, u32> {
        // "it marks the letters after it as keyword letters up to the first non-letter"
        let is_keyword = self.shifted && byte.is_ascii_alphabetic();
        self.shifted = is_keyword || byte == b'%';
        match byte {
            // "`%` is not kept"; "Spaces outside quotes vanish."
            b'%' | b' ' => Ok(Taken::More),
            // "`!` where no cell of the statement is held yet starts a comment"
            b'!' if self.length == 0 => {
                self.skip_comment();
                Ok(Taken::More)
            }
            // "A newline outside quotes, when the last cell held is a keyword letter C, is dropped
            // with that C, and the statement goes on."
            b'\n' if self.ends_in_continuation() => {
                self.find_room()?;
                self.length -= 1;
                Ok(Taken::More)
            }
            b'\n' | b';' => {
                self.find_room()?;
                Ok(Taken::End)
            }
            _ => {
                self.quoted = byte == b'\'';
                // "Outside quotes a to z become capitals."
                let mark = if is_keyword { KEYWORD } else { 0 };
                self.keep(byte.to_ascii_uppercase() | mark)
            }
        }
    }

    /// Goes on to the byte that ends a comment, which "swallows all through the next `;` or
    /// newline".
    fn skip_comment(&mut self) {
        let rest = &self.source[self.place..];
        let end = rest.iter().position(|&byte| byte == b';' || byte == b'\n');
        self.place += end.unwrap_or(rest.len());
    }

    /// "The end of the source counts as one newline." But it does not finish quotes, and a C asks
    /// for more; both are refused before too many cells.
    fn take_end(&mut self) -> Result<Taken, u32> {
        if self.quoted || self.ends_in_continuation() {
            return Err(SOURCE_ENDS_EARLY);
        }
        self.take_unquoted(b'\n')
    }

    fn ends_in_continuation(&self) -> bool {
        self.cells[..self.length].last() == Some(&(b'C' | KEYWORD))
    }

    fn keep(&mut self, cell: u8) -> Result<Taken, u32> {
        self.find_room()?;
        self.cells[self.length] = cell;
        self.length += 1;
        Ok(Taken::More)
    }

    /// Refuses the statement unless one more cell fits. The end mark takes a cell, and so does a
    /// newline before it is dropped with its C.
    fn find_room(&self) -> Result<(), u32> {
        match self.length {
            MOST_CELLS.. => Err(TOO_MANY_CELLS),
            _ => Ok(()),
        }
    }
}
