//! About as many comparisons in one IF as there may be.

use super::around;
use crate::condition::JOININGS;
use crate::generate::conditions::joined;
use crate::limits::MOST_COMPARISONS;
use crate::random::Random;
use crate::writing::joined::text;

/// What may stand around the condition. Others of the refusals come before 11.
const FORMS: [&str; 16] = [
    "%IF $ %THEN A=1",
    "%IF $ %THEN A=1",
    "%IF $ %THEN ->1 %ELSE SEND(A)",
    "%IF ($) %THEN A=1",
    "%IF $ %THEN %START\nA=1\n%FINISH",
    "%IF A=1 %THEN %START\n%IF $ %THEN A=1\n%FINISH",
    "%IF $ %THEN A=1\n%IF $ %THEN A=2",
    "%IF A=1 %THEN A=1 %ELSE A=2\n%IF $ %THEN ->9",
    "0:%IF $ %THEN A=1",
    "%IF $ %THEN ->0",
    "%IF $ %THEN B=1",
    "%IF $ %AND %THEN A=1",
    "%IF %OR $ %THEN A=1",
    "%IF $) %THEN A=1",
    "%IF ($) %AND A=1 %OR A=2 %THEN A=1",
    "%IF ($) %AND 1-(1-1)=1 %THEN A=1",
];

/// An IF of about the most comparisons, in runs and brackets, maybe with another refusal.
pub fn source(random: &mut Random) -> Vec<u8> {
    let count = match random.below(4) {
        0 => random.between(2, 20),
        _ => around(random, MOST_COMPARISONS),
    };
    let wrong = random.once_in(8).then(|| random.below(count));
    let comparisons: Vec<String> = (0..count)
        .map(|place| match wrong == Some(place) {
            true => random.pick(&["A=X", "A=1=1", "A", "(A=1)=1", "1=(A=1)", "A='", "A=%X"]),
            false => random.pick(&["A=1", "1<A", "A#2", "(A)=1", "A>=(1)", "\\A=1", "(A-1)*2=A"]),
        })
        .map(str::to_string)
        .collect();
    let word = random.pick(&JOININGS).0;
    let condition = joined(random, word, &mut comparisons.into_iter(), count);
    let brackets = random.pick(&[1000, 12, 6]);
    let condition = text(&condition, &mut || random.once_in(brackets));
    let statement = random.pick(&FORMS).replace('$', &condition);
    let after = random.pick(&["", "A=2", "->0", "B=1", "->9", "%X"]);
    format!("%BEGIN\n%INTEGER A\n1:\n{statement}\n{after}\n%ENDOFPROGRAM").into_bytes()
}
