//! The form of a condition.

use super::{Parser, LOWEST};
use crate::compact::{Piece, Place, Run};
use crate::condition::{Comparison, Joining};
use crate::source::tokens::Token;

/// What a bracket holds that stands where a comparison may begin.
enum Held {
    Expression(Place),
    /// The pieces behind those that were there are its own.
    Condition,
}

impl Held {
    /// Something, if it is a condition.
    fn condition(self) -> Option<()> {
        match self {
            Held::Condition => Some(()),
            Held::Expression(_) => None,
        }
    }
}

impl Parser<'_, '_> {
    /// A condition. Its pieces are added to those of the statement.
    pub(super) fn condition(&mut self) -> Option<()> {
        self.held()?.condition()
    }

    /// A condition or, where no relation follows it, an expression.
    fn held(&mut self) -> Option<Held> {
        let first = self.pieces.len();
        let held = self.test()?;
        if let Held::Condition = held {
            if let Some(word) = self.joining() {
                self.run(first, word)?;
            }
        }
        Some(held)
    }

    /// A comparison, what stands in brackets, or an expression that no relation follows.
    fn test(&mut self) -> Option<Held> {
        let left = match self.take(Token::Open) {
            false => self.expression()?,
            true => {
                let held = self.held()?;
                if !self.take(Token::Close) {
                    return None;
                }
                // a bracket that holds an expression is the first operand of one
                match held {
                    Held::Expression(operand) => self.operations(operand, LOWEST)?,
                    Held::Condition => return Some(Held::Condition),
                }
            }
        };
        let Some(relation) = self.relation() else {
            return Some(Held::Expression(left));
        };
        let right = self.expression()?;
        self.pieces.push(Piece::Comparison(Comparison {
            relation,
            left,
            right,
        }));
        Some(Held::Condition)
    }

    /// Goes on from the first member, whose pieces begin at a place, and the word behind it. "Mixing
    /// the two without brackets is refusal 7": the other word is left, and nothing that may follow
    /// begins with it.
    fn run(&mut self, first: usize, word: Joining) -> Option<()> {
        let mut members = self.merge(first, word);
        loop {
            let next = self.pieces.len();
            self.test()?.condition()?;
            members += self.merge(next, word);
            if !self.take(Token::Joining(word)) {
                break;
            }
        }
        let comparisons = self.pieces[first..].iter();
        let comparisons = comparisons.filter(|piece| matches!(piece, Piece::Comparison(_)));
        let run = Run {
            word,
            members,
            comparisons: comparisons.count() as u32,
        };
        self.pieces.insert(first, Piece::Run(run));
        Some(())
    }

    /// "A sheet, by its definition, merges nested runs of the same joining word": where the pieces
    /// from a place on are such a run, only its members stay. Gives how many members they are.
    fn merge(&mut self, place: usize, word: Joining) -> u32 {
        match self.pieces[place] {
            Piece::Run(run) if run.word == word => {
                self.pieces.remove(place);
                run.members
            }
            _ => 1,
        }
    }

    fn joining(&mut self) -> Option<Joining> {
        let (Token::Joining(word), rest) = self.rest.split_first()? else {
            return None;
        };
        self.rest = rest;
        Some(*word)
    }
}
