//! Ways to damage the orders of joined conditions.

use super::{drop_at, is_branch, order, put_in_at, some_place};
use crate::limits::{MOST_COMPARISONS, MOST_NUMBER};
use crate::object::{Kind, Name};
use crate::random::Random;
use crate::translate::Translation;

/// Some COND, by its place.
fn some_cond(random: &mut Random, translation: &Translation) -> Option<usize> {
    some_place(random, translation, |order| order.name == Name::Cond)
}

/// The branches of the comparisons behind a COND.
fn branches(translation: &Translation, cond: usize) -> Vec<usize> {
    let count = translation.orders[cond].number as usize;
    let behind = cond + 1..translation.orders.len();
    let branches = behind.filter(|&place| is_branch(&translation.orders[place]));
    branches.take(count).collect()
}

pub fn move_count(random: &mut Random, translation: &mut Translation) {
    if let Some(cond) = some_cond(random, translation) {
        super::move_by_one(random, &mut translation.orders[cond].number);
    }
}

/// COND has a number that no condition has.
pub fn no_count(random: &mut Random, translation: &mut Translation) {
    if let Some(cond) = some_cond(random, translation) {
        let over = MOST_COMPARISONS as u32 + 1;
        let count = random.pick(&[0, 1, over, over + 1, 256, MOST_NUMBER]);
        translation.orders[cond].number = count;
    }
}

pub fn drop_cond(random: &mut Random, translation: &mut Translation) {
    if let Some(cond) = some_cond(random, translation) {
        drop_at(translation, cond);
    }
}

/// A COND stands before an order at which no condition begins. What led there leads to it.
pub fn put_in_cond(random: &mut Random, translation: &mut Translation) {
    let place = random.below(translation.orders.len());
    let count = random.pick(&[0, 1, 1, 2, 2, 3, 16, 17]);
    put_in_at(translation, place, order(Name::Cond, Kind::Number, count));
}

/// A COND stands before a comparison alone.
pub fn put_in_before_if(random: &mut Random, translation: &mut Translation) {
    let Some(branch) = some_place(random, translation, is_branch) else {
        return;
    };
    // the last LOAD before a branch begins many comparisons
    let is_load = |place: &usize| translation.orders[*place].name == Name::Load;
    if let Some(place) = (0..branch).rev().find(is_load) {
        let count = random.pick(&[1, 1, 2]);
        put_in_at(translation, place, order(Name::Cond, Kind::Number, count));
    }
}

/// A branch leads to another comparison of its condition, to the part, past it, or to COND.
pub fn lead_in_condition(random: &mut Random, translation: &mut Translation) {
    let Some(cond) = some_cond(random, translation) else {
        return;
    };
    let branches = branches(translation, cond);
    let (Some(&last), branch) = (branches.last(), random.pick(&branches)) else {
        return;
    };
    let past = translation.orders[last].number as usize;
    let mut targets: Vec<usize> = branches.iter().map(|branch| branch + 1).collect();
    targets.extend([cond, cond + 1, past, past]);
    translation.orders[branch].number = random.pick(&targets) as u32;
}

/// One of the branches leads right before or behind where it should.
pub fn lead_beside(random: &mut Random, translation: &mut Translation) {
    if let Some(cond) = some_cond(random, translation) {
        let branch = random.pick(&branches(translation, cond));
        super::move_by_one(random, &mut translation.orders[branch].number);
    }
}

/// A jump to an IF leads behind its COND.
pub fn jump_behind_cond(random: &mut Random, translation: &mut Translation) {
    let leads_to_cond = |place: u32| {
        let order = translation.orders.get(place as usize);
        order.is_some_and(|order| order.name == Name::Cond)
    };
    let jump = some_place(random, translation, |order| {
        order.kind == Kind::Address && leads_to_cond(order.number)
    });
    if let Some(jump) = jump {
        translation.orders[jump].number += 1;
    }
}
