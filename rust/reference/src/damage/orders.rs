//! Ways to damage the orders of a translation.

mod conditions;

use crate::object::{Kind, Name, Order, STOP};
use crate::random::Random;
use crate::translate::Translation;
use conditions::*;

pub type Damage = fn(&mut Random, &mut Translation);

/// Each with how many of 2,000 objects at least are read back, refused though they are good
/// objects, and not even that.
#[rustfmt::skip]
pub const DAMAGES: [(&str, Damage, [usize; 3]); 43] = [
    ("an order replaced", replace, [100, 1000, 100]),
    ("a name changed", change_name, [100, 1000, 0]),
    ("a relation changed", change_relation, [2000, 0, 0]),
    ("a word or constant changed", change_operand, [1000, 100, 100]),
    ("a word moved by one", move_word, [100, 100, 100]),
    ("a word turned into a constant", change_kind, [900, 100, 100]),
    ("an order dropped", drop_order, [10, 100, 1000]),
    ("an order dropped, the jumps moved along", drop_and_move, [100, 1000, 10]),
    ("an order doubled", double, [100, 1000, 100]),
    ("an order doubled, the jumps moved along", double_and_move, [100, 1000, 100]),
    ("an order put in, the jumps moved along", put_in, [100, 1000, 10]),
    ("two neighbours swapped", swap_neighbours, [100, 1000, 100]),
    ("two orders swapped", swap, [100, 1000, 100]),
    ("an address moved by one", move_address, [100, 1000, 100]),
    ("an address changed", change_address, [100, 1000, 0]),
    ("a branch moved from a SKIP to the order after it", branch_past_skip, [0, 1000, 0]),
    ("a branch moved back to the SKIP before its target", branch_to_skip, [0, 1000, 0]),
    ("a branch moved from a JMP to the order after it", branch_past_jump, [100, 100, 0]),
    ("a branch moved back to the JMP before its target", branch_to_jump, [100, 100, 0]),
    ("a branch moved by one", move_branch, [100, 1000, 0]),
    ("a branch into a part", branch_into_part, [10, 1000, 0]),
    ("a SKIP moved by one", move_skip, [100, 1000, 0]),
    ("a SKIP that leads elsewhere", change_skip, [100, 1000, 0]),
    ("a SKIP led on to where the SKIP leads that it leads to", lead_on, [0, 1000, 0]),
    ("a SKIP turned into a JMP", skip_to_jump, [1000, 50, 0]),
    ("a JMP turned into a SKIP", jump_to_skip, [0, 1000, 0]),
    ("a JMP led to a SKIP", lead_to_skip, [0, 1000, 0]),
    ("a SKIP taken out, the jumps moved along", drop_skip, [1000, 0, 0]),
    ("a SKIP put before a branch's target", put_in_skip, [10, 1000, 10]),
    ("the part of a branch taken out", drop_part, [0, 1000, 0]),
    ("a COND's number moved by one", move_count, [50, 1000, 0]),
    ("a COND's number that no condition has", no_count, [0, 2000, 0]),
    ("a COND taken out, the jumps moved along", drop_cond, [50, 1000, 0]),
    ("a COND put in, the jumps moved along", put_in_cond, [0, 1000, 0]),
    ("a COND put before a comparison", put_in_before_if, [0, 1000, 0]),
    ("a branch led elsewhere in its condition", lead_in_condition, [100, 1000, 0]),
    ("a branch of a condition moved by one", lead_beside, [10, 1000, 0]),
    ("a jump moved behind its COND", jump_behind_cond, [0, 2000, 0]),
    ("a plain operand by way of temporaries", by_temporaries, [0, 1000, 10]),
    ("V changed by one", change_variables, [100, 100, 100]),
    ("T changed by one", change_temporaries, [0, 1000, 100]),
    ("V and T changed by one, their sum kept", change_both, [0, 1000, 10]),
    ("a STOP early, late or missing", change_stop, [0, 0, 2000]),
];

const OPERATIONS: [Name; 12] = [
    Name::Load,
    Name::Add,
    Name::Sub,
    Name::Mlt,
    Name::Div,
    Name::Exp,
    Name::Shl,
    Name::Shr,
    Name::And,
    Name::Or,
    Name::Xor,
    Name::Cmp,
];
const BRANCHES: [Name; 6] = [
    Name::Be,
    Name::Bne,
    Name::Blt,
    Name::Ble,
    Name::Bgt,
    Name::Bge,
];

fn order(name: Name, kind: Kind, number: u32) -> Order {
    Order { name, kind, number }
}

/// The place of some order for which `test` holds.
fn some_place(
    random: &mut Random,
    translation: &Translation,
    test: impl Fn(&Order) -> bool,
) -> Option<usize> {
    let places = 0..translation.orders.len();
    let places: Vec<usize> = places
        .filter(|&place| test(&translation.orders[place]))
        .collect();
    (!places.is_empty()).then(|| random.pick(&places))
}

fn any_place(random: &mut Random, translation: &Translation) -> usize {
    random.below(translation.orders.len())
}

/// Some address of the object.
fn some_address(random: &mut Random, translation: &Translation) -> u32 {
    any_place(random, translation) as u32
}

/// Some word of the frame; of a frame without words, one that it has not.
fn some_word(random: &mut Random, translation: &Translation) -> u32 {
    let last = 1 + translation.variables + translation.temporaries;
    random.between(2, last.max(2) as usize) as u32
}

pub fn some_order(random: &mut Random, translation: &Translation) -> Order {
    match random.below(8) {
        0 => order(random.pick(&[Name::Neg, Name::Not]), Kind::Nothing, 0),
        1 => order(Name::Send, Kind::Nothing, 0),
        2 => order(Name::Str, Kind::Word, some_word(random, translation)),
        3 => {
            let address = some_address(random, translation);
            order(
                random.pick(&[Name::Jmp, Name::Skip]),
                Kind::Address,
                address,
            )
        }
        4 => {
            let address = some_address(random, translation);
            order(random.pick(&BRANCHES), Kind::Address, address)
        }
        5 => {
            let name = match random.once_in(8) {
                true => Name::Cond,
                false => random.pick(&OPERATIONS),
            };
            order(name, Kind::Number, random.below(9) as u32)
        }
        _ => {
            let word = some_word(random, translation);
            order(random.pick(&OPERATIONS), Kind::Word, word)
        }
    }
}

fn replace(random: &mut Random, translation: &mut Translation) {
    let place = any_place(random, translation);
    translation.orders[place] = some_order(random, translation);
}

fn change_name(random: &mut Random, translation: &mut Translation) {
    let place = some_place(random, translation, |order| {
        OPERATIONS.contains(&order.name)
    });
    if let Some(place) = place {
        translation.orders[place].name = random.pick(&OPERATIONS);
    }
}

fn is_branch(order: &Order) -> bool {
    BRANCHES.contains(&order.name)
}

fn change_relation(random: &mut Random, translation: &mut Translation) {
    if let Some(place) = some_place(random, translation, is_branch) {
        translation.orders[place].name = random.pick(&BRANCHES);
    }
}

fn change_operand(random: &mut Random, translation: &mut Translation) {
    let has_operand = |order: &Order| matches!(order.kind, Kind::Word | Kind::Number);
    let Some(place) = some_place(random, translation, has_operand) else {
        return;
    };
    translation.orders[place].number = match translation.orders[place].kind {
        Kind::Word => some_word(random, translation),
        _ => random.pick(&[0, 1, 0x7FFF_FFFF, 0x8000_0000, u32::MAX]),
    };
}

fn move_word(random: &mut Random, translation: &mut Translation) {
    if let Some(place) = some_place(random, translation, |order| order.kind == Kind::Word) {
        move_by_one(random, &mut translation.orders[place].number);
    }
}

/// One more or one less, but never less than 0.
fn move_by_one(random: &mut Random, number: &mut u32) {
    *number = if *number == 0 || random.once_in(2) {
        *number + 1
    } else {
        *number - 1
    };
}

fn change_kind(random: &mut Random, translation: &mut Translation) {
    let test = |order: &Order| OPERATIONS.contains(&order.name);
    if let Some(place) = some_place(random, translation, test) {
        let order = &mut translation.orders[place];
        order.kind = match order.kind {
            Kind::Word => Kind::Number,
            _ => Kind::Word,
        };
    }
}

fn drop_order(random: &mut Random, translation: &mut Translation) {
    translation.orders.remove(any_place(random, translation));
}

/// Moves the addresses past a place along with the orders there.
fn move_addresses(translation: &mut Translation, place: usize, change: impl Fn(u32) -> u32) {
    for order in &mut translation.orders {
        if order.kind == Kind::Address && order.number as usize > place {
            order.number = change(order.number);
        }
    }
}

fn drop_at(translation: &mut Translation, place: usize) {
    translation.orders.remove(place);
    move_addresses(translation, place, |address| address - 1);
}

/// Puts an order in before the one at a place. What led there leads to the new one.
fn put_in_at(translation: &mut Translation, place: usize, order: Order) {
    move_addresses(translation, place, |address| address + 1);
    translation.orders.insert(place, order);
}

fn drop_and_move(random: &mut Random, translation: &mut Translation) {
    let place = any_place(random, translation);
    drop_at(translation, place);
}

fn double(random: &mut Random, translation: &mut Translation) {
    let place = any_place(random, translation);
    translation.orders.insert(place, translation.orders[place]);
}

fn double_and_move(random: &mut Random, translation: &mut Translation) {
    let place = any_place(random, translation);
    put_in_at(translation, place, translation.orders[place]);
}

fn put_in(random: &mut Random, translation: &mut Translation) {
    let place = any_place(random, translation);
    let order = some_order(random, translation);
    put_in_at(translation, place, order);
}

fn swap_neighbours(random: &mut Random, translation: &mut Translation) {
    let place = any_place(random, translation);
    let other = (place + 1) % translation.orders.len();
    translation.orders.swap(place, other);
}

fn swap(random: &mut Random, translation: &mut Translation) {
    let (a, b) = (
        any_place(random, translation),
        any_place(random, translation),
    );
    translation.orders.swap(a, b);
}

fn is_jump(order: &Order) -> bool {
    order.kind == Kind::Address
}

fn move_address(random: &mut Random, translation: &mut Translation) {
    if let Some(place) = some_place(random, translation, is_jump) {
        move_by_one(random, &mut translation.orders[place].number);
    }
}

fn change_address(random: &mut Random, translation: &mut Translation) {
    if let Some(place) = some_place(random, translation, is_jump) {
        translation.orders[place].number = some_address(random, translation);
    }
}

/// Some branch for whose target `test` holds, and that target.
fn some_branch(
    random: &mut Random,
    translation: &Translation,
    test: impl Fn(usize) -> bool,
) -> Option<(usize, usize)> {
    let target = |order: &Order| order.number as usize;
    let good = |order: &Order| is_branch(order) && test(target(order));
    let place = some_place(random, translation, good)?;
    Some((place, target(&translation.orders[place])))
}

/// Whether the order at a place has this name.
fn is(translation: &Translation, place: usize, name: Name) -> bool {
    let order = translation.orders.get(place);
    order.is_some_and(|order| order.name == name)
}

/// Moves a branch to the order after its target, if that has this name.
fn branch_past(random: &mut Random, translation: &mut Translation, name: Name) {
    let test = |target| is(translation, target, name);
    if let Some((branch, _)) = some_branch(random, translation, test) {
        translation.orders[branch].number += 1;
    }
}

/// Moves a branch to the order before its target, if that has this name.
fn branch_before(random: &mut Random, translation: &mut Translation, name: Name) {
    let test = |target| target > 0 && is(translation, target - 1, name);
    if let Some((branch, _)) = some_branch(random, translation, test) {
        translation.orders[branch].number -= 1;
    }
}

/// An IF that ends before a SKIP takes that for its own.
fn branch_past_skip(random: &mut Random, translation: &mut Translation) {
    branch_past(random, translation, Name::Skip);
}

fn branch_to_skip(random: &mut Random, translation: &mut Translation) {
    branch_before(random, translation, Name::Skip);
}

/// The GOTO behind a part becomes the part's last instruction.
fn branch_past_jump(random: &mut Random, translation: &mut Translation) {
    branch_past(random, translation, Name::Jmp);
}

fn branch_to_jump(random: &mut Random, translation: &mut Translation) {
    branch_before(random, translation, Name::Jmp);
}

fn move_branch(random: &mut Random, translation: &mut Translation) {
    if let Some(place) = some_place(random, translation, is_branch) {
        let last = translation.orders.len() as u32 - 1;
        let number = &mut translation.orders[place].number;
        move_by_one(random, number);
        *number = (*number).min(last);
    }
}

/// A branch leads to some order between itself and its target, or to one in another part.
fn branch_into_part(random: &mut Random, translation: &mut Translation) {
    if let Some((branch, target)) = some_branch(random, translation, |_| true) {
        let last = translation.orders.len() - 1;
        let other = match random.below(2) {
            0 => random.between((branch + 1).min(target), target),
            _ => random.between(target, last.min(target + 12)),
        };
        translation.orders[branch].number = other as u32;
    }
}

fn some_skip(random: &mut Random, translation: &Translation) -> Option<usize> {
    some_place(random, translation, |order| order.name == Name::Skip)
}

fn some_jmp(random: &mut Random, translation: &Translation) -> Option<usize> {
    some_place(random, translation, |order| order.name == Name::Jmp)
}

fn move_skip(random: &mut Random, translation: &mut Translation) {
    if let Some(place) = some_skip(random, translation) {
        let last = translation.orders.len() as u32 - 1;
        let number = &mut translation.orders[place].number;
        move_by_one(random, number);
        *number = (*number).min(last);
    }
}

fn change_skip(random: &mut Random, translation: &mut Translation) {
    if let Some(place) = some_skip(random, translation) {
        translation.orders[place].number = some_address(random, translation);
    }
}

/// "Branches and SKIPs lead to the order right after their part", even where that is a SKIP.
fn lead_on(random: &mut Random, translation: &mut Translation) {
    let leads_to_skip = |order: &Order| {
        let leads = is_branch(order) || order.name == Name::Skip;
        leads && is(translation, order.number as usize, Name::Skip)
    };
    if let Some(place) = some_place(random, translation, leads_to_skip) {
        let skip = translation.orders[place].number as usize;
        translation.orders[place].number = translation.orders[skip].number;
    }
}

fn skip_to_jump(random: &mut Random, translation: &mut Translation) {
    if let Some(place) = some_skip(random, translation) {
        translation.orders[place].name = Name::Jmp;
    }
}

fn jump_to_skip(random: &mut Random, translation: &mut Translation) {
    if let Some(place) = some_jmp(random, translation) {
        translation.orders[place].name = Name::Skip;
    }
}

fn lead_to_skip(random: &mut Random, translation: &mut Translation) {
    let (jmp, skip) = (
        some_jmp(random, translation),
        some_skip(random, translation),
    );
    if let (Some(jmp), Some(skip)) = (jmp, skip) {
        translation.orders[jmp].number = skip as u32;
    }
}

fn drop_skip(random: &mut Random, translation: &mut Translation) {
    if let Some(place) = some_skip(random, translation) {
        drop_at(translation, place);
    }
}

/// What follows a part becomes its ELSE, as far as the SKIP leads over it.
fn put_in_skip(random: &mut Random, translation: &mut Translation) {
    if let Some((branch, target)) = some_branch(random, translation, |_| true) {
        let over = random.between(target + 1, target + 6) as u32;
        put_in_at(translation, target, order(Name::Skip, Kind::Address, over));
        translation.orders[branch].number = target as u32 + 1;
    }
}

/// The orders between a branch and its target, or its SKIP, are left out.
fn drop_part(random: &mut Random, translation: &mut Translation) {
    let Some((branch, target)) = some_branch(random, translation, |_| true) else {
        return;
    };
    let skips = target > 0 && is(translation, target - 1, Name::Skip);
    let end = target - usize::from(skips);
    for place in (branch + 1..end).rev() {
        drop_at(translation, place);
    }
}

/// "A binary with a plain right operand is the left, then the order on it", but here it is done as
/// if the operand were not plain.
fn by_temporaries(random: &mut Random, translation: &mut Translation) {
    let binary = |order: &Order| OPERATIONS[1..].contains(&order.name);
    let Some(place) = some_place(random, translation, binary) else {
        return;
    };
    let old = translation.orders[place];
    let first = 2 + translation.variables;
    let orders = [
        order(Name::Str, Kind::Word, first),
        order(Name::Load, old.kind, old.number),
        order(Name::Str, Kind::Word, first + 1),
        order(Name::Load, Kind::Word, first),
        order(old.name, Kind::Word, first + 1),
    ];
    drop_at(translation, place);
    for order in orders.into_iter().rev() {
        put_in_at(translation, place, order);
    }
    translation.temporaries = translation.temporaries.max(2);
}

fn change_variables(random: &mut Random, translation: &mut Translation) {
    move_by_one(random, &mut translation.variables);
}

fn change_temporaries(random: &mut Random, translation: &mut Translation) {
    move_by_one(random, &mut translation.temporaries);
}

fn change_both(random: &mut Random, translation: &mut Translation) {
    let sum = translation.variables + translation.temporaries;
    if sum > 0 {
        move_by_one(random, &mut translation.variables);
        translation.variables = translation.variables.min(sum);
        translation.temporaries = sum - translation.variables;
    }
}

fn change_stop(random: &mut Random, translation: &mut Translation) {
    let place = any_place(random, translation);
    match random.below(4) {
        0 => translation.orders[place] = STOP,
        1 => put_in_at(translation, place, STOP),
        2 => translation.orders.push(STOP),
        _ => {
            translation.orders.pop();
        }
    }
}
