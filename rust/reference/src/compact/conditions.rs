//! The conditions of compact sheets.

use super::{Compact, Place};
use crate::condition::{Comparison, Condition, Joining, JOININGS};
use crate::sheet::RELATIONS;
use crate::text::put_number;

/// A piece of a condition. The pieces stand in the order of sheet text: a run, then its members.
#[derive(Clone, Copy, Debug)]
pub enum Piece {
    Comparison(Comparison<Place>),
    Run(Run),
}

#[derive(Clone, Copy, Debug)]
pub struct Run {
    pub word: Joining,
    pub members: u32,
    /// How many there are in all members.
    pub comparisons: u32,
}

impl Piece {
    /// How many comparisons there are from this piece to the last that belongs to it.
    pub fn comparisons(self) -> u32 {
        match self {
            Piece::Comparison(_) => 1,
            Piece::Run(run) => run.comparisons,
        }
    }
}

/// A condition, by the places of its first piece and of the one after its last.
#[derive(Clone, Copy, Debug)]
pub struct Pieces {
    first: Place,
    end: Place,
}

impl Compact {
    /// The pieces of a condition.
    pub fn pieces(&self, condition: Pieces) -> &[Piece] {
        &self.pieces[condition.first as usize..condition.end as usize]
    }

    /// The condition of all pieces from a place on.
    pub fn pieces_from(&self, first: usize) -> Pieces {
        Pieces {
            first: first as Place,
            end: self.pieces.len() as Place,
        }
    }

    /// Adds the pieces of a condition, and the nodes of its expressions.
    pub fn put_condition(&mut self, condition: &Condition) -> Pieces {
        let first = self.pieces.len();
        self.put_pieces(condition);
        self.pieces_from(first)
    }

    fn put_pieces(&mut self, condition: &Condition) {
        match condition {
            Condition::Comparison(only) => {
                let (left, right) = (self.put_all(&only.left), self.put_all(&only.right));
                self.pieces.push(Piece::Comparison(Comparison {
                    relation: only.relation,
                    left,
                    right,
                }));
            }
            Condition::Run(word, members) => {
                self.pieces.push(Piece::Run(Run {
                    word: *word,
                    members: members.len() as u32,
                    comparisons: condition.count() as u32,
                }));
                for member in members {
                    self.put_pieces(member);
                }
            }
        }
    }

    /// The condition that the pieces are.
    pub fn condition(&self, condition: Pieces) -> Condition {
        self.next_condition(&mut self.pieces(condition).iter())
    }

    /// The condition at the front of the pieces, which are taken from there.
    fn next_condition<'p>(&self, pieces: &mut impl Iterator<Item = &'p Piece>) -> Condition {
        match pieces.next().expect("as many as the runs have members") {
            Piece::Comparison(only) => Condition::comparison(
                only.relation,
                self.expression(only.left),
                self.expression(only.right),
            ),
            Piece::Run(run) => {
                let members = (0..run.members).map(|_| self.next_condition(pieces));
                Condition::Run(run.word, members.collect())
            }
        }
    }

    /// "writes a run as the word, the number of its members and these, comparisons as rel expr expr"
    pub(super) fn write_condition(&self, text: &mut Vec<u8>, condition: Pieces) {
        for piece in self.pieces(condition) {
            text.push(b'\t');
            match piece {
                Piece::Comparison(only) => {
                    text.extend_from_slice(RELATIONS[only.relation as usize].1.as_bytes());
                    self.write_expression(text, only.left);
                    self.write_expression(text, only.right);
                }
                Piece::Run(run) => {
                    text.extend_from_slice(JOININGS[run.word as usize].1.as_bytes());
                    text.push(b'\t');
                    put_number(text, run.members);
                }
            }
        }
    }
}
