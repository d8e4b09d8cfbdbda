//! What the conditions of a test have.

use crate::condition::{Comparison, Condition, Joining, JOININGS};
use crate::limits::MOST_COMPARISONS;
use crate::sheet::RELATIONS;

#[derive(Default)]
pub struct Conditions {
    /// For each number of comparisons.
    counts: [usize; MOST_COMPARISONS + 1],
    /// For each word, runs in no other, in one, in two, and in more.
    runs: [[usize; 4]; 2],
    /// For each relation, before each word, and last of all in a run or in no run.
    followed: [[usize; 3]; 6],
}

/// What may follow a comparison: the two words, and nothing.
const NOTHING: usize = 2;

impl Conditions {
    pub fn add(&mut self, condition: &Condition) {
        self.counts[condition.count()] += 1;
        self.member(condition, NOTHING, 0);
    }

    /// Counts a member by what follows it, in so many runs.
    fn member(&mut self, condition: &Condition, follows: usize, around: usize) {
        let (word, members) = match condition {
            Condition::Comparison(Comparison { relation, .. }) => {
                self.followed[*relation as usize][follows] += 1;
                return;
            }
            Condition::Run(word, members) => (*word as usize, members),
        };
        self.runs[word][around.min(3)] += 1;
        for (place, member) in members.iter().enumerate() {
            let is_last = place + 1 == members.len();
            let follows = if is_last { follows } else { word };
            self.member(member, follows, around + 1);
        }
    }

    /// Holds every relation before each word and last, and runs of each word in each other, to having
    /// been met `least` times; those in two others to a fifth of that.
    pub fn every_form(&self, source: &str, least: usize) {
        for ((_, sign), counts) in RELATIONS.iter().zip(self.followed) {
            for (follows, count) in ["AND", "OR", "nothing"].iter().zip(counts) {
                assert!(
                    count >= least,
                    "{source}: {count} times {sign} before {follows}"
                );
            }
        }
        for ((_, word), [alone, inner, deeper, _]) in JOININGS.iter().zip(self.runs) {
            assert!(
                alone.min(inner).min(5 * deeper) >= least,
                "{source}: {alone} runs of {word}, {inner} in a run, {deeper} in two"
            );
        }
    }

    /// How many conditions have so many comparisons.
    pub fn with(&self, comparisons: usize) -> usize {
        self.counts.get(comparisons).copied().unwrap_or(0)
    }

    /// How many runs of a word stand in three others or more.
    pub fn deep(&self, word: Joining) -> usize {
        self.runs[word as usize][3]
    }
}
