//! Objects that are nearly those of joined conditions: all are good objects, and most have no sheet.

use skimp_reference::agree::{Compared, Outcomes, READ_BACK};
use skimp_reference::condition::Condition;
use skimp_reference::generate::conditions::every_condition;
use skimp_reference::object::{Kind, Name, Order};
use skimp_reference::sheet::{Line, Sheet};
use skimp_reference::translate::{translate, Translation};

use super::{goto, of_variables, send, sheet};
use crate::read_back_call;

const NO_SHEET: u32 = 31;

/// An IF with the condition, whose part is two jumps.
fn program(condition: &Condition<usize>) -> Sheet {
    let lines = vec![
        Line::If(of_variables(condition)),
        goto(1),
        goto(1),
        Line::Finish,
    ];
    sheet(condition.count(), lines)
}

fn translated(condition: &Condition<usize>) -> Translation {
    translate(&program(condition)).expect("within the limits")
}

/// The place of the branch of a comparison, from 0: COND, and three orders each.
fn branch(number: usize) -> usize {
    3 * (number + 1)
}

/// Every list of targets for the branches of up to four comparisons. As many are read back as there are
/// conditions, times the two places where the part may end.
#[test]
fn every_list_of_targets() {
    let mut compared = Compared::new(READ_BACK, read_back_call);
    for (count, conditions) in [(2, 2), (3, 6), (4, 22)] {
        let mut outcomes = Outcomes::default();
        let mut translation = translated(&every_condition(0, count)[0]);
        let addresses = translation.orders.len();
        for list in 0..addresses.pow(count as u32) {
            let mut rest = list;
            for number in 0..count {
                translation.orders[branch(number)].number = (rest % addresses) as u32;
                rest /= addresses;
            }
            outcomes.add(compared.check("targets", translation.text().as_bytes()));
        }
        assert_eq!(outcomes.accepted, 2 * conditions, "{outcomes}");
        let (refused, _) = outcomes.refused(NO_SHEET);
        assert_eq!(outcomes.accepted + refused, outcomes.texts);
    }
}

/// The branches of all conditions of five comparisons, each led to every order.
#[test]
fn every_wrong_target() {
    let mut compared = Compared::new(READ_BACK, read_back_call);
    let mut outcomes = Outcomes::default();
    for condition in every_condition(0, 5) {
        let whole = translated(&condition);
        for number in 0..5 {
            for target in 0..whole.orders.len() as u32 {
                let mut translation = whole.clone();
                translation.orders[branch(number)].number = target;
                outcomes.add(compared.check("a target", translation.text().as_bytes()));
            }
        }
    }
    println!("{outcomes}");
    assert!(outcomes.accepted >= 90 * 5, "{outcomes}");
    outcomes.met("a target", NO_SHEET, 5000, 1);
}

/// A branch turned to its opposite is that of the opposite relation, whatever follows it.
#[test]
fn every_turned_branch() {
    let mut compared = Compared::new(READ_BACK, read_back_call);
    for condition in every_condition(0, 4) {
        let whole = translated(&condition);
        for number in 0..4 {
            let mut translation = whole.clone();
            let order = &mut translation.orders[branch(number)];
            order.name = match order.name {
                Name::Be => Name::Bne,
                _ => Name::Be,
            };
            let outcome = compared.check("turned", translation.text().as_bytes());
            assert_eq!(outcome, Ok(()), "{condition:?}, {number}");
        }
    }
}

/// COND with every number up to 18 and with great ones, before conditions of up to four comparisons.
#[test]
fn every_count() {
    let mut compared = Compared::new(READ_BACK, read_back_call);
    let mut outcomes = Outcomes::default();
    for size in 2..=4 {
        for condition in every_condition(0, size) {
            let mut translation = translated(&condition);
            for count in (0..=18).chain([256, 65_536, 2_147_483_647]) {
                translation.orders[0].number = count;
                let outcome = compared.check("a count", translation.text().as_bytes());
                if [0, 1, 17, 18, 256, 65_536, 2_147_483_647].contains(&count) {
                    assert!(outcome.is_err_and(|refusal| refusal.number == NO_SHEET));
                }
                outcomes.add(outcome);
            }
        }
    }
    // COND with fewer may be that of the first comparisons, with an IF of the others as its part
    println!("{outcomes}");
    assert!(outcomes.accepted >= 30, "{outcomes}");
}

/// An order put in before another. What led there leads to it.
fn put_in(translation: &mut Translation, place: usize, order: Order) {
    for order in &mut translation.orders {
        if order.kind == Kind::Address && order.number as usize > place {
            order.number += 1;
        }
    }
    translation.orders.insert(place, order);
}

/// COND left out, put in before every order, and moved to every other place.
#[test]
fn every_place() {
    let mut compared = Compared::new(READ_BACK, read_back_call);
    let mut outcomes = Outcomes::default();
    let alone = vec![send(1), Line::If(of_variables(&Condition::Comparison(0)))];
    let alone = [alone, vec![send(2), Line::Finish, send(3)]].concat();
    let mut wholes = vec![translate(&sheet(1, alone)).expect("within the limits")];
    for count in 2..=4 {
        wholes.extend(every_condition(0, count).iter().map(translated));
    }
    for whole in wholes {
        for place in 0..whole.orders.len() {
            for count in [0, 1, 2, 3, 16, 17] {
                let mut translation = whole.clone();
                let cond = Order {
                    name: Name::Cond,
                    kind: Kind::Number,
                    number: count,
                };
                put_in(&mut translation, place, cond);
                outcomes.add(compared.check("one more", translation.text().as_bytes()));
                // the first one left out, so that this is moved there or put in its place
                translation.orders.remove(0);
                for order in &mut translation.orders {
                    if order.kind == Kind::Address {
                        order.number = order.number.saturating_sub(1);
                    }
                }
                outcomes.add(compared.check("moved", translation.text().as_bytes()));
            }
        }
    }
    println!("{outcomes}");
    outcomes.met("a place", NO_SHEET, 1000, 1);
}
