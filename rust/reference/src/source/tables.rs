//! What the names and labels of a program stand for. Both tables are sorted, so that a search takes
//! few steps.

use crate::object::LINK_WORDS;

/// The variables that are declared.
#[derive(Default)]
pub struct Variables {
    /// The letters of all names, one behind the other.
    letters: Vec<u8>,
    /// Where the letters of each begin and end, in order of the names, and its word.
    rows: Vec<Row>,
}

struct Row {
    first: usize,
    end: usize,
    word: u32,
}

impl Variables {
    pub fn count(&self) -> u32 {
        self.rows.len() as u32
    }

    /// The row of a name, or where it would stand.
    fn search(&self, name: &[u8]) -> Result<usize, usize> {
        self.rows
            .binary_search_by(|row| self.letters[row.first..row.end].cmp(name))
    }

    /// "A name is a letter and the letters and digits after it, compared whole."
    pub fn word(&self, name: &[u8]) -> Option<u32> {
        let row = self.search(name).ok()?;
        Some(self.rows[row].word)
    }

    /// Declares a name, unless it is already.
    pub fn declare(&mut self, name: &[u8]) -> bool {
        let Err(place) = self.search(name) else {
            return false;
        };
        let first = self.letters.len();
        self.letters.extend_from_slice(name);
        let row = Row {
            first,
            end: self.letters.len(),
            word: LINK_WORDS + self.count(),
        };
        self.rows.insert(place, row);
        true
    }
}

/// The labels that are set, in order of the labels, each with the number of the instruction that it
/// leads to. One behind a first part that has a second waits for what follows the whole IF.
#[derive(Default)]
pub struct Labels {
    rows: Vec<(u32, u32)>,
}

impl Labels {
    pub fn count(&self) -> usize {
        self.rows.len()
    }

    fn search(&self, label: u32) -> Result<usize, usize> {
        self.rows.binary_search_by_key(&label, |row| row.0)
    }

    pub fn instruction(&self, label: u32) -> Option<u32> {
        let row = self.search(label).ok()?;
        Some(self.rows[row].1)
    }

    /// Lets all labels that lead to one number lead to another.
    pub fn lead_on(&mut self, from: u32, to: u32) {
        for row in &mut self.rows {
            if row.1 == from {
                row.1 = to;
            }
        }
    }

    /// Sets a label, unless it is already.
    pub fn set(&mut self, label: u32, instruction: u32) -> bool {
        let Err(place) = self.search(label) else {
            return false;
        };
        self.rows.insert(place, (label, instruction));
        true
    }
}
