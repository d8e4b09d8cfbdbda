//! Tokens as bytes: the ways in which a statement may be spelled.

use super::token::Token;
use crate::limits::MOST_CELLS;
use crate::random::Random;

/// A byte that a statement keeps, and whether `%` marks it as a keyword letter.
#[derive(Clone, Copy)]
pub struct Cell {
    byte: u8,
    is_keyword: bool,
}

/// How a source is spelled. Once in 0 times is never.
#[derive(Clone, Copy)]
pub struct Style {
    /// Once in so many places between two cells something stands that vanishes.
    gaps: usize,
    /// Once in so many letters one is small.
    small: usize,
    /// Once in so many places between two statements something stands that is skipped.
    skipped: usize,
    /// Statements end with `;` once in so many times.
    semicolons: usize,
}

impl Style {
    pub const PLAIN: Style = Style {
        gaps: 0,
        small: 0,
        skipped: 0,
        semicolons: 0,
    };

    pub fn random(random: &mut Random) -> Style {
        Style {
            gaps: random.pick(&[0, 2, 5, 20, 60]),
            small: random.pick(&[0, 1, 2, 10]),
            skipped: random.pick(&[0, 2, 6]),
            semicolons: random.pick(&[0, 1, 2]),
        }
    }

    /// A source with these statements.
    pub fn source(self, random: &mut Random, statements: &[Vec<Token>]) -> Vec<u8> {
        let mut source = Vec::new();
        for (place, statement) in statements.iter().enumerate() {
            self.skip(random, &mut source);
            let cells = cells(random, statement);
            self.statement(random, &cells, &mut source);
            let is_last = place + 1 == statements.len();
            // the end of the source counts as one newline
            if is_last && random.once_in(4) {
                return source;
            }
            source.push(match once_in(random, self.semicolons) {
                true => b';',
                false => b'\n',
            });
        }
        if random.once_in(4) {
            source.extend(text(random, 12));
        }
        source
    }

    /// Sometimes puts comments and statements of nothing.
    fn skip(self, random: &mut Random, source: &mut Vec<u8>) {
        while once_in(random, self.skipped) {
            let end = random.pick(b";\n");
            match random.below(4) {
                0 => source.push(end),
                1 => source.extend([b' ', end]),
                2 => source.extend(b"%C\n"),
                _ => {
                    source.extend(random.pick(&["!", " ! ", "%!", "%c \n!"]).bytes());
                    let note = text(random, 12);
                    source.extend(note.into_iter().filter(|byte| !b";\n".contains(byte)));
                    source.push(end);
                }
            }
        }
    }

    /// Spells a statement, without its end.
    fn statement(self, random: &mut Random, cells: &[Cell], source: &mut Vec<u8>) {
        let mut speller = Speller {
            style: self,
            source,
            shifted: false,
            held: 0,
        };
        let mut quoted = false;
        for cell in cells {
            if quoted {
                speller.source.push(cell.byte);
            } else {
                speller.gap(random);
                speller.cell(random, *cell);
            }
            speller.held += 1;
            quoted ^= cell.byte == b'\'';
        }
        speller.gap(random);
    }
}

/// Like `Random::once_in`, but never once in 0.
fn once_in(random: &mut Random, times: usize) -> bool {
    times > 0 && random.once_in(times)
}

struct Speller<'s> {
    style: Style,
    source: &'s mut Vec<u8>,
    /// Only letters have come since a `%`.
    shifted: bool,
    held: usize,
}

impl Speller<'_> {
    /// Puts a cell that stands outside quotes or begins or ends them.
    fn cell(&mut self, random: &mut Random, cell: Cell) {
        if cell.is_keyword && (!self.shifted || once_in(random, self.style.gaps)) {
            self.source.push(b'%');
        }
        if !cell.is_keyword && self.shifted && cell.byte.is_ascii_alphabetic() {
            self.source.push(b' ');
        }
        self.shifted = cell.is_keyword;
        self.source.push(match once_in(random, self.style.small) {
            true => cell.byte.to_ascii_lowercase(),
            false => cell.byte,
        });
    }

    /// Sometimes puts what vanishes: spaces, `%`, or a newline with its C.
    fn gap(&mut self, random: &mut Random) {
        if !once_in(random, self.style.gaps) {
            return;
        }
        match random.below(8) {
            0..=4 => self.source.push(b' '),
            5 => self.source.extend(b" %  "),
            // the C and the newline take a cell each
            _ if self.held + 2 > MOST_CELLS => return,
            6 => {
                // behind keyword letters the C needs no `%`
                if !self.shifted {
                    self.source.push(b'%');
                }
                self.source
                    .extend(random.pick(&["C\n", "c\n", "C \n"]).bytes());
            }
            _ => self.source.extend(b" %C  %\n "),
        }
        self.shifted = false;
    }
}

/// The cells of tokens, with zeros before some decimal constants if there is room.
pub fn cells(random: &mut Random, tokens: &[Token]) -> Vec<Cell> {
    // without the end mark
    let mut room = (MOST_CELLS - 1).saturating_sub(length(tokens));
    let mut cells = Vec::new();
    for token in tokens {
        if matches!(token, Token::Decimal(_)) && random.once_in(16) {
            let zeros = random.pick(&[1, 2, 12]).min(room);
            room -= zeros;
            put(&mut cells, &vec![b'0'; zeros], false);
        }
        put_token(&mut cells, token);
    }
    cells
}

/// How many cells the tokens have.
pub fn length(tokens: &[Token]) -> usize {
    let mut cells = Vec::new();
    for token in tokens {
        put_token(&mut cells, token);
    }
    cells.len()
}

fn put(cells: &mut Vec<Cell>, bytes: &[u8], is_keyword: bool) {
    cells.extend(bytes.iter().map(|&byte| Cell { byte, is_keyword }));
}

fn put_token(cells: &mut Vec<Cell>, token: &Token) {
    match token {
        Token::Keyword(letters) => put(cells, letters.as_bytes(), true),
        Token::Name(name) => put(cells, name.as_bytes(), false),
        Token::Decimal(value) => put(cells, value.to_string().as_bytes(), false),
        Token::Quoted(value) => {
            put(cells, b"'", false);
            for byte in value.to_be_bytes() {
                match byte {
                    0 => {}
                    b'\'' => put(cells, b"''", false),
                    _ => put(cells, &[byte], false),
                }
            }
            put(cells, b"'", false);
        }
        Token::Symbol(symbol) => put(cells, symbol.as_bytes(), false),
        Token::Stray(byte) => put(cells, &[*byte], false),
    }
}

/// Up to so many allowed bytes, with more of those that matter in source.
pub fn text(random: &mut Random, most: usize) -> Vec<u8> {
    let length = random.below(most + 1);
    let byte = |_| match random.below(2) {
        0 => random.between(32, 126) as u8,
        _ => random.pick(b"%%''!;\n C=()"),
    };
    (0..length).map(byte).collect()
}
