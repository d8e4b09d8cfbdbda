//! The cases of a page, as main.rs lays them down.

use crate::calls::Made;
use crate::pieces::{pieces, Piece};
use crate::table::Table;

/// A source, and what the page says of it: the object and the sheet only where it has them.
#[derive(Debug)]
pub struct Case {
    /// The line of the page where the source or the row stands, from 1.
    pub line: usize,
    pub source: String,
    pub wanted: Made,
}

/// Where the example stands in a frame.
pub const GAP: &str = "....";

/// The cases of a page in order, or what is wrong with it.
pub fn cases(page: &str) -> Result<Vec<Case>, String> {
    let mut reader = Reader::default();
    for piece in pieces(page)? {
        let line = piece.line;
        let taken = reader.take(piece);
        taken.map_err(|wrong| format!("line {line}: {wrong}"))?;
    }
    reader.nothing_waits()?;
    Ok(reader.cases)
}

/// A page as far as it has been read.
#[derive(Default)]
struct Reader {
    cases: Vec<Case>,
    /// Sources that wait for their reply, with their lines.
    sources: Vec<(usize, String)>,
    /// A frame that waits for its table.
    frame: Option<String>,
}

impl Reader {
    fn take(&mut self, piece: Piece<'_>) -> Result<(), String> {
        let text = || piece.lines.iter().flat_map(|line| [line, "\n"]).collect();
        match piece.kind {
            None => self.take_table(piece.line, &piece.lines),
            Some("skimp") => {
                self.no_frame_waits()?;
                self.sources.push((piece.line, text()));
                Ok(())
            }
            Some("reply") => self.take_reply(&piece.lines),
            Some("frame") => {
                self.nothing_waits()?;
                let frame: String = text();
                if frame.matches(GAP).count() != 1 {
                    return Err(format!("a frame has {GAP} once"));
                }
                self.frame = Some(frame);
                Ok(())
            }
            Some(kind) => Err(format!("no block of this page is {kind:?}")),
        }
    }

    fn no_frame_waits(&self) -> Result<(), String> {
        match self.frame {
            Some(_) => Err("no table came for a frame".to_string()),
            None => Ok(()),
        }
    }

    fn nothing_waits(&self) -> Result<(), String> {
        self.no_frame_waits()?;
        match self.sources.first() {
            Some((line, _)) => Err(format!("no reply came for the source of line {line}")),
            None => Ok(()),
        }
    }

    /// Gives the sources that wait their reply.
    fn take_reply(&mut self, lines: &[&str]) -> Result<(), String> {
        if self.sources.is_empty() {
            return Err("no source came before this reply".to_string());
        }
        let wanted = reply(lines)?;
        let case = |(line, source)| Case {
            line,
            source,
            wanted: wanted.clone(),
        };
        self.cases.extend(self.sources.drain(..).map(case));
        Ok(())
    }

    /// Puts the examples of a table into the frame. A table without examples is text.
    fn take_table(&mut self, line: usize, lines: &[&str]) -> Result<(), String> {
        let table = Table::of(line, lines);
        if table.column("example").is_none() {
            return Ok(());
        }
        let frame = self.frame.take().ok_or("no frame came before this table")?;
        self.cases.extend(table.cases(&frame)?);
        Ok(())
    }
}

/// The lines of a `reply`.
fn reply(lines: &[&str]) -> Result<Made, String> {
    let lines = joined(lines);
    let lines: Vec<(&str, &str)> = lines.iter().map(|line| first_word(line)).collect();
    let (object, sheet, (word, rest)) = match lines[..] {
        [reply @ ("refused", _)] => (None, None, reply),
        [("object", object), ("sheet", sheet), reply @ ("sends", _)] => {
            (Some(object.to_string()), Some(sheet.to_string()), reply)
        }
        _ => return Err(format!("no reply's lines: {lines:?}")),
    };
    Ok(Made {
        object,
        sheet,
        reply: format!("{word} {rest}"),
    })
}

/// The first word of a line, and the rest behind a space.
fn first_word(line: &str) -> (&str, &str) {
    line.split_once(' ').unwrap_or((line, ""))
}

/// The lines with those that go on joined to the one before, and one space for several.
fn joined(lines: &[&str]) -> Vec<String> {
    let mut joined: Vec<String> = Vec::new();
    for line in lines {
        let words = line.split_whitespace().collect::<Vec<_>>().join(" ");
        match joined.last_mut() {
            Some(last) if line.starts_with(' ') => {
                last.push(' ');
                last.push_str(&words);
            }
            _ => joined.push(words),
        }
    }
    joined
}
