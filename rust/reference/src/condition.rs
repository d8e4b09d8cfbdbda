//! What an IF asks: a comparison, or a run of members joined by one word.

use crate::sheet::{Expression, Relation};

/// "comparisons as rel expr expr". `E` is what stands for an expression.
#[derive(Clone, Copy, Debug, PartialEq, Eq)]
pub struct Comparison<E = Expression> {
    pub relation: Relation,
    pub left: E,
    pub right: E,
}

/// The word that joins the members of a run.
#[derive(Clone, Copy, Debug, PartialEq, Eq)]
pub enum Joining {
    And,
    Or,
}

pub const JOININGS: [(Joining, &str); 2] = [(Joining::And, "AND"), (Joining::Or, "OR")];

impl Joining {
    pub fn other(self) -> Joining {
        match self {
            Joining::And => Joining::Or,
            Joining::Or => Joining::And,
        }
    }
}

/// `T` is what stands for a comparison.
#[derive(Clone, Debug, PartialEq, Eq)]
pub enum Condition<T = Comparison> {
    Comparison(T),
    /// In a sheet it has two members or more, and none is a run of the same word.
    Run(Joining, Vec<Condition<T>>),
}

impl Condition {
    pub fn comparison(relation: Relation, left: Expression, right: Expression) -> Condition {
        Condition::Comparison(Comparison {
            relation,
            left,
            right,
        })
    }
}

impl<T> Condition<T> {
    /// The run of some members as a sheet has it, which "merges nested runs of the same joining
    /// word". One member is itself.
    pub fn joined(word: Joining, members: Vec<Condition<T>>) -> Condition<T> {
        let mut merged = Vec::with_capacity(members.len());
        for member in members {
            match member {
                Condition::Run(inner, members) if inner == word => merged.extend(members),
                member => merged.push(member),
            }
        }
        match merged.len() {
            1 => merged.remove(0),
            _ => Condition::Run(word, merged),
        }
    }

    /// Whether it is one that a sheet may have, as far as its runs go.
    pub fn is_merged(&self) -> bool {
        let Condition::Run(word, members) = self else {
            return true;
        };
        let is_good = |member: &Condition<T>| member.word() != Some(*word) && member.is_merged();
        members.len() >= 2 && members.iter().all(is_good)
    }

    /// The word of a run.
    pub fn word(&self) -> Option<Joining> {
        match self {
            Condition::Comparison(_) => None,
            Condition::Run(word, _) => Some(*word),
        }
    }

    /// The comparisons, from left to right.
    pub fn comparisons(&self) -> Vec<&T> {
        match self {
            Condition::Comparison(only) => vec![only],
            Condition::Run(_, members) => members.iter().flat_map(Condition::comparisons).collect(),
        }
    }

    /// The same to be changed.
    pub fn comparisons_mut(&mut self) -> Vec<&mut T> {
        match self {
            Condition::Comparison(only) => vec![only],
            Condition::Run(_, members) => members
                .iter_mut()
                .flat_map(Condition::comparisons_mut)
                .collect(),
        }
    }

    /// How many comparisons there are: the number of COND.
    pub fn count(&self) -> usize {
        match self {
            Condition::Comparison(_) => 1,
            Condition::Run(_, members) => members.iter().map(Condition::count).sum(),
        }
    }

    /// How many runs stand in each other at most.
    pub fn depth(&self) -> usize {
        match self {
            Condition::Comparison(_) => 0,
            Condition::Run(_, members) => {
                1 + members.iter().map(Condition::depth).max().unwrap_or(0)
            }
        }
    }

    /// The same with others for the comparisons, which are changed from left to right.
    pub fn map<U>(&self, change: &mut impl FnMut(&T) -> U) -> Condition<U> {
        match self {
            Condition::Comparison(only) => Condition::Comparison(change(only)),
            Condition::Run(word, members) => {
                let members = members.iter().map(|member| member.map(change));
                Condition::Run(*word, members.collect())
            }
        }
    }
}
