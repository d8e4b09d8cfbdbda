//! Random conditions.

use super::Maker;
use crate::condition::{Comparison, Condition, Joining, JOININGS};
use crate::limits::MOST_COMPARISONS;
use crate::random::Random;
use crate::sheet::{Relation, RELATIONS};

/// The least orders of a comparison: one of its left operand, CMP and the branch.
pub const LEAST: usize = 3;

impl Maker<'_> {
    /// A condition of so many orders.
    pub(super) fn condition(&mut self, orders: usize) -> Condition {
        let count = self.count_of_comparisons(orders);
        if count == 1 {
            return Condition::Comparison(self.comparison(orders));
        }
        // without COND
        let mut spare = orders - 1 - LEAST * count;
        let mut comparisons = Vec::new();
        for left in (0..count).rev() {
            let more = match left {
                0 => spare,
                _ => self.random.below(spare + 1) / self.random.between(1, left + 1),
            };
            comparisons.push(self.comparison(LEAST + more));
            spare -= more;
        }
        let word = self.random.pick(&JOININGS).0;
        joined(self.random, word, &mut comparisons.into_iter(), count)
    }

    /// How many comparisons a condition of so many orders has: often one, else up to as many as fit.
    fn count_of_comparisons(&mut self, orders: usize) -> usize {
        // COND and two of them
        let alone = if self.plan.joined { 8 } else { 2 };
        if orders < 1 + 2 * LEAST || self.random.once_in(alone) {
            return 1;
        }
        let most = MOST_COMPARISONS.min((orders - 1) / LEAST);
        match self.random.below(8) {
            0 => most,
            1 if self.plan.joined => most,
            4.. if !self.plan.joined => self.random.between(2, most.min(4)),
            _ => self.random.between(2, most),
        }
    }

    /// A comparison that has so many orders with its branch.
    fn comparison(&mut self, orders: usize) -> Comparison {
        self.choose_nesting();
        let (left, mut right) = self.operands(orders - 1, self.plan.temporaries);
        let mut relation = self.random.pick(&RELATIONS).0;
        // inner parts are done only where all IFs around them lead there
        let is_plain = left.is_plain() && right.is_plain();
        if self.plan.deep && is_plain && self.random.once_in(2) {
            right = left.clone();
            let holding = [Relation::Equal, Relation::AtMost, Relation::AtLeast];
            relation = self.random.pick(&holding);
        }
        Comparison {
            relation,
            left,
            right,
        }
    }
}

/// A random condition of the next `count` comparisons, if more than one a run of the word.
pub fn joined<T>(
    random: &mut Random,
    word: Joining,
    comparisons: &mut impl Iterator<Item = T>,
    count: usize,
) -> Condition<T> {
    if count == 1 {
        return Condition::Comparison(comparisons.next().expect("as many as are counted"));
    }
    let mut members = Vec::new();
    let mut left = count;
    while left > 0 {
        // there are two members at least
        let most = left - usize::from(members.is_empty());
        let size = match random.once_in(2) {
            true => random.between(1, most),
            false => 1,
        };
        members.push(joined(random, word.other(), comparisons, size));
        left -= size;
    }
    Condition::Run(word, members)
}

/// Every condition of the numbers from `first` to before `end` as its comparisons: with one of them
/// only itself, else every run of each word.
pub fn every_condition(first: usize, end: usize) -> Vec<Condition<usize>> {
    if first + 1 == end {
        return vec![Condition::Comparison(first)];
    }
    let words = JOININGS.iter().map(|(word, _)| *word);
    words.flat_map(|word| every_run(word, first, end)).collect()
}

/// Every run of a word: every condition as its first member that is no run of the word, and behind it
/// every other one, or the rest of the run.
fn every_run(word: Joining, first: usize, end: usize) -> Vec<Condition<usize>> {
    let mut all = Vec::new();
    for cut in first + 1..end {
        let mut firsts = every_condition(first, cut);
        firsts.retain(|condition| condition.word() != Some(word));
        for rest in every_condition(cut, end) {
            for first in &firsts {
                all.push(Condition::joined(word, vec![first.clone(), rest.clone()]));
            }
        }
    }
    all
}
