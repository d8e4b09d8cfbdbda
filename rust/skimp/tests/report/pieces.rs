//! The pieces of a page that have cases: fenced blocks and tables.

/// A fenced block by its kind, or a table, where there is none.
pub struct Piece<'p> {
    /// Its first line on the page, from 1.
    pub line: usize,
    pub kind: Option<&'p str>,
    /// The lines between the fences, or those of the table.
    pub lines: Vec<&'p str>,
}

const FENCE: &str = "```";

/// The fenced blocks and the tables of a page.
pub fn pieces(page: &str) -> Result<Vec<Piece<'_>>, String> {
    let lines: Vec<&str> = page.lines().collect();
    let mut pieces = Vec::new();
    let mut place = 0;
    while place < lines.len() {
        let piece = piece_at(&lines, place)?;
        place += piece.as_ref().map_or(1, Piece::length);
        pieces.extend(piece);
    }
    Ok(pieces)
}

/// The piece that begins at a place.
fn piece_at<'p>(lines: &[&'p str], place: usize) -> Result<Option<Piece<'p>>, String> {
    let (line, rest) = (place + 1, &lines[place..]);
    let kind = rest[0].strip_prefix(FENCE);
    let lines = match kind {
        Some(_) => {
            let end = rest[1..].iter().position(|line| *line == FENCE);
            let end = end.ok_or(format!("line {line}: a block that is not closed"))?;
            rest[1..=end].to_vec()
        }
        None => {
            let rows = rest.iter().take_while(|line| line.starts_with('|'));
            rows.copied().collect()
        }
    };
    let piece = Piece { line, kind, lines };
    Ok((piece.length() > 0).then_some(piece))
}

impl Piece<'_> {
    /// The lines that it takes on the page: a block has two fences.
    fn length(&self) -> usize {
        self.lines.len() + if self.kind.is_some() { 2 } else { 0 }
    }
}
