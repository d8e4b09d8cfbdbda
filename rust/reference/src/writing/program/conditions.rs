//! The tokens of conditions.

use super::Writer;
use crate::condition::{Comparison, Condition, Joining, JOININGS};
use crate::sheet::RELATIONS;
use crate::writing::token::Token;

impl Writer<'_> {
    /// A condition, sometimes in brackets that it does not need.
    pub(super) fn condition(&mut self, condition: &Condition) {
        if self.random.once_in(self.brackets) {
            return self.in_brackets(|writer| writer.condition(condition));
        }
        match condition {
            Condition::Comparison(only) => self.comparison(only),
            Condition::Run(word, members) => self.members(*word, members),
        }
    }

    fn comparison(&mut self, only: &Comparison) {
        self.expression(&only.left);
        self.put(RELATIONS[only.relation as usize].1);
        self.expression(&only.right);
    }

    /// The members of a run, those that are runs in brackets. Sometimes several stand in brackets of
    /// their own, which a sheet merges again.
    fn members(&mut self, word: Joining, members: &[Condition]) {
        let mut rest = members;
        while !rest.is_empty() {
            if rest.len() < members.len() {
                self.tokens.push(Token::Keyword(JOININGS[word as usize].1));
            }
            let count = match self.random.once_in(self.brackets) {
                true => self.random.between(1, rest.len()),
                false => 1,
            };
            let (some, behind) = rest.split_at(count);
            match some {
                [only @ Condition::Comparison(_)] => self.condition(only),
                [only] => self.in_brackets(|writer| writer.condition(only)),
                some => self.in_brackets(|writer| writer.members(word, some)),
            }
            rest = behind;
        }
    }

    fn in_brackets(&mut self, write: impl FnOnce(&mut Self)) {
        self.put("(");
        write(self);
        self.put(")");
    }
}
