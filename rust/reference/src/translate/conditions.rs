//! The orders of a condition.

use super::Writer;
use crate::compact::{Piece, Pieces, Place};
use crate::condition::{Comparison, Joining};
use crate::object::Name;
use crate::sheet::Relation;

/// Where trying goes on once a member has an answer: the number of a comparison, from 0, or that of
/// all comparisons for the part, or one more for what stands past it.
#[derive(Clone, Copy)]
struct Exits {
    yes: u32,
    no: u32,
}

impl Writer<'_> {
    /// What an IF asks. The branches past the part are open behind it.
    pub(super) fn condition(&mut self, condition: Pieces) {
        let sheet = self.sheet;
        match sheet.pieces(condition) {
            [Piece::Comparison(only)] => self.alone(*only),
            pieces => self.joined(pieces),
        }
    }

    /// "A comparison is the same with CMP, then the branch of the opposite relation past u."
    fn alone(&mut self, only: Comparison<Place>) {
        self.binary(Name::Cmp, only.left, only.right, 0);
        let branch = self.put_jump(branch_unless(only.relation), 0);
        self.over.push(branch);
    }

    /// "A condition of two or more begins with a new order COND, kind K, whose number is the count of
    /// comparisons." Not inlined, so that a comparison alone costs as little as can be.
    #[inline(never)]
    fn joined(&mut self, pieces: &[Piece]) {
        let mut rest = pieces;
        let count = rest[0].comparisons();
        self.put_on_constant(Name::Cond, count);
        self.firsts.clear();
        let exits = Exits {
            yes: count,
            no: count + 1,
        };
        self.member(&mut rest, exits);
        self.firsts.push(self.place());
        self.lead_branches();
    }

    /// The member at the front of the pieces, which are taken from there. "Comparisons are tried left
    /// to right and only while the answer is open": no ends a run of AND, and yes one of OR.
    fn member(&mut self, rest: &mut &[Piece], exits: Exits) {
        let (piece, behind) = rest
            .split_first()
            .expect("as many as the runs have members");
        *rest = behind;
        let run = match piece {
            Piece::Comparison(only) => return self.comparison(*only, exits),
            Piece::Run(run) => run,
        };
        for left in (0..run.members).rev() {
            let next = self.firsts.len() as u32 + rest[0].comparisons();
            let exits = match run.word {
                _ if left == 0 => exits,
                Joining::And => Exits { yes: next, ..exits },
                Joining::Or => Exits { no: next, ..exits },
            };
            self.member(rest, exits);
        }
    }

    /// "After a comparison one branch goes straight to the next that matters, to the part's first
    /// instruction or past the part; the other answer falls through."
    fn comparison(&mut self, only: Comparison<Place>, exits: Exits) {
        self.firsts.push(self.place());
        self.binary(Name::Cmp, only.left, only.right, 0);
        let next = self.firsts.len() as u32;
        if exits.yes == next {
            self.put_jump(branch_unless(only.relation), exits.no);
        } else {
            self.put_jump(branch_if(only.relation), exits.yes);
        }
    }

    /// Puts addresses in place of the numbers of comparisons. A branch is the last order before the
    /// next comparison, or before the part.
    fn lead_branches(&mut self) {
        for first in &self.firsts[1..] {
            let branch = *first as usize - 1;
            let number = self.orders[branch].number as usize;
            match self.firsts.get(number) {
                Some(first) => self.orders[branch].number = *first,
                None => self.over.push(branch),
            }
        }
    }
}

/// The branch that is taken where the relation holds.
fn branch_if(relation: Relation) -> Name {
    match relation {
        Relation::Equal => Name::Be,
        Relation::Unequal => Name::Bne,
        Relation::Less => Name::Blt,
        Relation::AtMost => Name::Ble,
        Relation::Greater => Name::Bgt,
        Relation::AtLeast => Name::Bge,
    }
}

/// "the branch of the opposite relation"
fn branch_unless(relation: Relation) -> Name {
    match relation {
        Relation::Equal => Name::Bne,
        Relation::Unequal => Name::Be,
        Relation::Less => Name::Bge,
        Relation::AtMost => Name::Bgt,
        Relation::Greater => Name::Ble,
        Relation::AtLeast => Name::Blt,
    }
}
