//! The condition whose comparisons and branches were read.
//!
//! A member is known by where its branches lead: to comparisons of its own, to the one right after it,
//! or out of its run. The shortest such front of a run whose last branch leads out is its first member,
//! and what follows it is the next one or the rest of the run.

use super::{Part, Read, Reader};
use crate::compact::{Compact, Piece, Run};
use crate::condition::{Comparison, Joining};
use crate::limits::MOST_COMPARISONS;
use crate::object::Name;
use crate::sheet::Relation;

impl Reader<'_> {
    /// Adds the one comparison that an IF asks, and gives where its branch leads. It is as if AND
    /// followed it.
    pub(super) fn alone(&mut self, only: Read) -> Option<usize> {
        self.sheet.pieces.push(followed(only, Joining::And)?);
        Some(only.target)
    }

    /// Reads COND and so many comparisons, and gives where the branch of the last leads, which is past
    /// the part.
    pub(super) fn joined(&mut self, count: usize) -> Option<usize> {
        if !(2..=MOST_COMPARISONS).contains(&count) {
            return None;
        }
        self.place += 1;
        let mut read = Vec::with_capacity(count);
        let mut firsts = Vec::with_capacity(count + 1);
        for _ in 0..count {
            firsts.push(self.place);
            let Part::Comparison(comparison) = self.part()? else {
                return None;
            };
            read.push(comparison);
        }
        firsts.push(self.place);
        let past = read[count - 1].target;
        let number = |read: &Read| match read.target == past {
            true => Some(count + 1),
            false => firsts.iter().position(|&first| first == read.target),
        };
        let targets: Option<Vec<usize>> = read.iter().map(number).collect();
        let asked = Asked {
            targets: targets?,
            read,
        };
        asked.put(&mut self.sheet)?;
        Some(past)
    }
}

/// The comparisons of a condition, and where each branch leads: the number of a comparison, from 0, or
/// that of all comparisons for the part, or one more for what stands past it.
struct Asked {
    read: Vec<Read>,
    targets: Vec<usize>,
}

/// What follows some comparisons: after AND the answer yes leads to the next one and no to `other`,
/// after OR no to the next one and yes to `other`.
#[derive(Clone, Copy)]
struct Context {
    word: Joining,
    other: usize,
}

impl Asked {
    /// Adds the pieces of the condition, if the branches lead as those of one do.
    fn put(&self, sheet: &mut Compact) -> Option<()> {
        let count = self.read.len();
        let context = Context {
            word: Joining::And,
            other: count + 1,
        };
        self.member(sheet, 0, count, context)
    }

    /// Adds the pieces of the comparisons from one to before another.
    fn member(
        &self,
        sheet: &mut Compact,
        first: usize,
        end: usize,
        context: Context,
    ) -> Option<()> {
        if first + 1 == end {
            sheet.pieces.push(self.comparison(first, context)?);
            return Some(());
        }
        let place = sheet.pieces.len();
        let cut = (first + 1..end).find(|&cut| self.is_member(first, cut, end, context.other))?;
        let inner = match self.targets[cut - 1] == context.other {
            true => context,
            false => Context {
                word: context.word.other(),
                other: end,
            },
        };
        self.member(sheet, first, cut, inner)?;
        let second = sheet.pieces.len();
        self.member(sheet, cut, end, context)?;
        join(&mut sheet.pieces, place, second, inner.word);
        Some(())
    }

    /// Whether the comparisons from one to before another may be the first member of a run that goes
    /// on to `end`, where its last answer leads there or to `other`.
    fn is_member(&self, first: usize, cut: usize, end: usize, other: usize) -> bool {
        let leads_out = |target: usize| target == end || target == other;
        let targets = &self.targets[first..cut];
        let is_closed = targets
            .iter()
            .all(|&target| target <= cut || leads_out(target));
        is_closed && leads_out(targets[targets.len() - 1])
    }

    /// The comparison of a number.
    fn comparison(&self, number: usize, context: Context) -> Option<Piece> {
        let leads_out = self.targets[number] == context.other;
        let piece = followed(self.read[number], context.word)?;
        leads_out.then_some(piece)
    }
}

/// A comparison that a word follows. After AND its branch is taken on no, after OR on yes.
fn followed(read: Read, word: Joining) -> Option<Piece> {
    let taken = relation_of(read.branch)?;
    let relation = match word {
        Joining::And => opposite(taken),
        Joining::Or => taken,
    };
    Some(Piece::Comparison(Comparison {
        relation,
        left: read.left,
        right: read.right,
    }))
}

/// Joins two members, the pieces from one place and from another on, by a word. A sheet "merges nested
/// runs of the same joining word": what follows the first member may be the rest of its run.
fn join(pieces: &mut Vec<Piece>, first: usize, second: usize, word: Joining) {
    let comparisons = pieces[first].comparisons() + pieces[second].comparisons();
    let members = match pieces[second] {
        Piece::Run(run) if run.word == word => {
            pieces.remove(second);
            run.members + 1
        }
        _ => 2,
    };
    let run = Run {
        word,
        members,
        comparisons,
    };
    pieces.insert(first, Piece::Run(run));
}

/// The relation at which a branch is taken.
pub fn relation_of(name: Name) -> Option<Relation> {
    Some(match name {
        Name::Be => Relation::Equal,
        Name::Bne => Relation::Unequal,
        Name::Blt => Relation::Less,
        Name::Ble => Relation::AtMost,
        Name::Bgt => Relation::Greater,
        Name::Bge => Relation::AtLeast,
        _ => return None,
    })
}

fn opposite(relation: Relation) -> Relation {
    match relation {
        Relation::Equal => Relation::Unequal,
        Relation::Unequal => Relation::Equal,
        Relation::Less => Relation::AtLeast,
        Relation::AtMost => Relation::Greater,
        Relation::Greater => Relation::AtMost,
        Relation::AtLeast => Relation::Less,
    }
}
