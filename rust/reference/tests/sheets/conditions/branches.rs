//! The branches by the tables of the report's Chapter 8: the levels, the words and the columns to which
//! branches lead. The translation goes another way.

use skimp_reference::condition::{Condition, Joining};
use skimp_reference::generate::conditions::{every_condition, joined};
use skimp_reference::object::{Kind, Name};
use skimp_reference::random::Random;
use skimp_reference::sheet::Line;
use skimp_reference::translate::translate;

use super::{goto, of_variables, sheet, CONDITIONS, ORDERS};

/// The rows LEVEL and ANDOR: of each comparison, the level and the word that follows it. A last member
/// has those of its run. "we can imagine an %AND following the last simple comparison", on level -1, and
/// an %OR behind the first instruction, on level -2.
fn levels(condition: &Condition<usize>) -> Vec<(i32, Joining)> {
    fn put(
        condition: &Condition<usize>,
        level: i32,
        follows: (i32, Joining),
        rows: &mut Vec<(i32, Joining)>,
    ) {
        let Condition::Run(word, members) = condition else {
            return rows.push(follows);
        };
        for (place, member) in members.iter().enumerate() {
            let is_last = place + 1 == members.len();
            let follows = if is_last { follows } else { (level, *word) };
            put(member, level + 1, follows, rows);
        }
    }
    let mut rows = Vec::new();
    put(condition, 0, (-1, Joining::And), &mut rows);
    rows.push((-2, Joining::Or));
    rows
}

/// The row BRANCH, its columns from 1: for a comparison followed by a word, the one behind the next of
/// the other word on an outer level. As the listing has it (SKIMPC 31 to 41), that is a level below all
/// on the way: what stands in brackets beside it is none.
fn branches(rows: &[(i32, Joining)]) -> Vec<usize> {
    let branch = |place: usize| {
        let (mut level, word) = rows[place];
        for (other, row) in rows.iter().enumerate().skip(place + 1) {
            if row.0 < level {
                level = row.0;
                if row.1 != word {
                    return other + 2;
                }
            }
        }
        panic!("the %OR is on the outermost level");
    };
    (0..rows.len() - 1).map(branch).collect()
}

/// The rows of the condition that the translation of its IF shows: whether each branch is taken on yes,
/// and the columns to which they lead. The part is a jump.
fn translated(condition: &Condition<usize>) -> Vec<(bool, usize)> {
    let count = condition.count();
    let lines = vec![Line::If(of_variables(condition)), goto(1), Line::Finish];
    let translation = translate(&sheet(count, lines)).expect("within the limits");
    let orders = translation.orders;
    assert_eq!(orders.len(), 1 + ORDERS * count + 2);
    let cond = (orders[0].name, orders[0].kind, orders[0].number);
    assert_eq!(cond, (Name::Cond, Kind::Number, count as u32));
    let branch = |number: usize| {
        let order = orders[ORDERS * (number + 1)];
        let is_yes = match order.name {
            Name::Be => true,
            Name::Bne => false,
            _ => panic!("{order:?}"),
        };
        let past = 1 + ORDERS * count + 1;
        let target = order.number as usize;
        match target == past {
            true => (is_yes, count + 2),
            false => {
                assert_eq!(target % ORDERS, 1, "{condition:?}");
                (is_yes, target / ORDERS + 1)
            }
        }
    };
    (0..count).map(branch).collect()
}

fn check(condition: &Condition<usize>) {
    let rows = levels(condition);
    let is_yes = rows.iter().map(|(_, word)| *word == Joining::Or);
    let expected: Vec<_> = is_yes.zip(branches(&rows)).collect();
    assert_eq!(translated(condition), expected, "{condition:?}");
}

#[test]
fn every_condition_of_a_few() {
    for (count, number) in CONDITIONS.into_iter().enumerate().skip(2) {
        let conditions = every_condition(0, count);
        assert_eq!(conditions.len(), number);
        conditions.iter().for_each(check);
    }
}

#[test]
fn random_conditions() {
    let mut random = Random(17);
    for _ in 0..20_000 {
        let count = random.between(2, 16);
        let word = random.pick(&[Joining::And, Joining::Or]);
        check(&joined(&mut random, word, &mut (0..count), count));
    }
}

/// The two tables of pages 51 and 52 that have no jump for an instruction: "LEVEL", "ANDOR" (1 for
/// false and 2 for true) and "BRANCH".
#[test]
fn tables_of_the_report() {
    use Condition::Comparison as C;
    let and = |members| Condition::Run(Joining::And, members);
    let or = |members| Condition::Run(Joining::Or, members);
    // (sc1 %OR sc2 %OR sc3) %AND (sc4 %OR sc5)
    let first = and(vec![or(vec![C(0), C(1), C(2)]), or(vec![C(3), C(4)])]);
    // sc1 %OR ((sc2 %OR sc3) %AND sc4 %AND sc5)
    let inner = and(vec![or(vec![C(1), C(2)]), C(3), C(4)]);
    let second = or(vec![C(0), inner]);
    for (condition, level, andor, branch) in [
        (
            first,
            [1, 1, 0, 1, -1, -2],
            [2, 2, 1, 2, 1, 2],
            [4, 4, 7, 6, 7],
        ),
        (
            second,
            [0, 2, 1, 1, -1, -2],
            [2, 2, 1, 1, 1, 2],
            [6, 4, 7, 7, 7],
        ),
    ] {
        let rows = levels(&condition);
        let number = |word: Joining| if word == Joining::And { 1 } else { 2 };
        let words: Vec<i32> = rows.iter().map(|row| number(row.1)).collect();
        assert_eq!(rows.iter().map(|row| row.0).collect::<Vec<_>>(), level);
        assert_eq!(words, andor);
        assert_eq!(branches(&rows), branch);
        let translated = translated(&condition);
        let columns: Vec<usize> = translated.iter().map(|row| row.1).collect();
        assert_eq!(columns, branch);
        let taken: Vec<bool> = translated.iter().map(|row| row.0).collect();
        assert_eq!(
            taken,
            andor[..5].iter().map(|&it| it == 2).collect::<Vec<_>>()
        );
    }
}
