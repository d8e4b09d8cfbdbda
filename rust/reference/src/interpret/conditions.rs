//! The answer of what an IF asks.

use super::{Ending, Meaning};
use crate::condition::{Comparison, Condition, Joining};
use crate::sheet::Relation;

/// How far the comparisons of an IF have been gone through.
#[derive(Default)]
struct Tries {
    /// The number of the next one, from 0.
    next: usize,
    /// How many were tried.
    count: usize,
}

impl Meaning<'_> {
    /// What an IF asks. COND, with which two comparisons or more begin, counts too.
    pub(super) fn condition(&mut self, condition: &Condition) -> Result<bool, Ending> {
        let count = condition.count();
        self.count += u64::from(count > 1);
        let mut tries = Tries::default();
        let holds = self.member(condition, &mut tries)?;
        if count > 1 {
            self.joined[usize::from(tries.count == count)][usize::from(holds)] += 1;
        }
        Ok(holds)
    }

    /// The answer of a member. "Comparisons are tried left to right and only while the answer is
    /// open."
    fn member(&mut self, condition: &Condition, tries: &mut Tries) -> Result<bool, Ending> {
        let (word, members) = match condition {
            Condition::Run(word, members) => (*word, members),
            Condition::Comparison(only) => {
                (self.begun, self.tried) = (self.count, tries.next);
                tries.next += 1;
                tries.count += 1;
                return self.comparison(only);
            }
        };
        // no closes a run of AND, and yes one of OR
        let closing = word == Joining::Or;
        let mut answer = !closing;
        for member in members {
            match answer == closing {
                true => tries.next += member.count(),
                false => answer = self.member(member, tries)?,
            }
        }
        Ok(answer)
    }

    fn comparison(&mut self, only: &Comparison) -> Result<bool, Ending> {
        let (left, right) = self.operands(&only.left, &only.right)?;
        // the comparison and the branch
        self.count += 2;
        let holds = holds(only.relation, left, right);
        self.comparisons[only.relation as usize][usize::from(holds)] += 1;
        Ok(holds)
    }
}

/// "Comparison is signed and never wraps."
fn holds(relation: Relation, left: i32, right: i32) -> bool {
    match relation {
        Relation::Equal => left == right,
        Relation::Unequal => left != right,
        Relation::Less => left < right,
        Relation::AtMost => left <= right,
        Relation::Greater => left > right,
        Relation::AtLeast => left >= right,
    }
}
