//! Every list of targets for the branches of a few comparisons: those that are read back are as many as
//! there are conditions, and each is read back to its own.

use std::collections::HashMap;

use skimp_reference::condition::Condition;
use skimp_reference::generate::conditions::every_condition;
use skimp_reference::object::Name;
use skimp_reference::sheet::{Line, Relation, Sheet};
use skimp_reference::translate::{translate, Translation};
use skimp_reference::untranslate::untranslate;

use super::{goto, of_variables, sheet, CONDITIONS, ORDERS};

/// The lines behind an IF whose part is one of two jumps or both of them. All jumps lead to the IF, so
/// that the orders differ in nothing but the branches.
fn one_part() -> Vec<Vec<Line>> {
    vec![
        vec![goto(1), Line::Finish, goto(1)],
        vec![goto(1), goto(1), Line::Finish],
    ]
}

fn two_parts() -> Vec<Vec<Line>> {
    vec![vec![goto(1), Line::Else, goto(1), Line::Finish]]
}

fn program(condition: &Condition<usize>, ending: &[Line]) -> Sheet {
    let lines = [vec![Line::If(of_variables(condition))], ending.to_vec()].concat();
    sheet(condition.count(), lines)
}

/// The places of the branches of so many comparisons.
fn branches(count: usize) -> impl Iterator<Item = usize> {
    (1..=count).map(|number| ORDERS * number)
}

/// The sheets of all conditions of so many comparisons by the targets of their branches, and one of the
/// translations.
fn sheets(count: usize, endings: &[Vec<Line>]) -> (HashMap<Vec<u32>, Sheet>, Translation) {
    let mut sheets = HashMap::new();
    let mut last = None;
    for ending in endings {
        for condition in every_condition(0, count) {
            let sheet = program(&condition, ending);
            let translation = translate(&sheet).expect("within the limits");
            let targets = branches(count).map(|place| translation.orders[place].number);
            let before = sheets.insert(targets.collect(), sheet);
            assert_eq!(before, None, "two of them have the same targets");
            last = Some(translation);
        }
    }
    (sheets, last.expect("a condition"))
}

/// Tries every target for each of the branches, with the names as they are in some translation.
fn check(count: usize, whole: &Translation, sheets: &HashMap<Vec<u32>, Sheet>) {
    let addresses = whole.orders.len();
    let mut translation = whole.clone();
    let mut accepted = 0;
    for list in 0..addresses.pow(count as u32) {
        let mut rest = list;
        let mut targets = Vec::with_capacity(count);
        for place in branches(count) {
            targets.push((rest % addresses) as u32);
            rest /= addresses;
            translation.orders[place].number = targets[targets.len() - 1];
        }
        let back = untranslate(&translation);
        accepted += usize::from(back.is_some());
        let same = match (&back, sheets.get(&targets)) {
            (Some(back), Some(sheet)) => without_relations(back) == without_relations(sheet),
            (back, sheet) => back.is_none() && sheet.is_none(),
        };
        assert!(same, "{targets:?}: {back:?}");
    }
    assert_eq!(accepted, sheets.len());
}

/// The text of a sheet with one relation for both.
fn without_relations(sheet: &Sheet) -> String {
    sheet.text().replace("\t#\t", "\t=\t")
}

#[test]
fn every_list_of_targets() {
    for (count, conditions) in CONDITIONS.into_iter().enumerate().take(6).skip(2) {
        for endings in [one_part(), two_parts()] {
            let (sheets, whole) = sheets(count, &endings);
            assert_eq!(sheets.len(), endings.len() * conditions);
            check(count, &whole, &sheets);
        }
    }
}

/// Where the branches lead tells all but the relations: a branch that is turned to its opposite is that
/// of the opposite relation.
#[test]
fn every_turned_branch() {
    for count in 2..=5 {
        for condition in every_condition(0, count) {
            let sheet = program(&condition, &two_parts()[0]);
            let whole = translate(&sheet).expect("within the limits");
            for (number, place) in branches(count).enumerate() {
                let mut translation = whole.clone();
                let order = &mut translation.orders[place];
                order.name = match order.name {
                    Name::Be => Name::Bne,
                    _ => Name::Be,
                };
                let mut turned = sheet.clone();
                let Line::If(condition) = &mut turned.lines[0] else {
                    panic!("an IF");
                };
                condition.comparisons_mut()[number].relation = Relation::Unequal;
                assert_eq!(untranslate(&translation), Some(turned));
            }
        }
    }
}
