//! Orders that are a translation but for some damage, and random orders. Some are the translation of
//! another sheet.

use skimp::MOST_ORDERS;
use skimp_reference::agree::{Compared, Outcomes, READ_BACK};
use skimp_reference::damage::orders::{some_order, Damage, DAMAGES};
use skimp_reference::generate::Plan;
use skimp_reference::object::STOP;
use skimp_reference::random::Random;
use skimp_reference::translate::{translate, Translation};

use crate::read_back_call;

const OBJECTS_OF_EACH: usize = 2000;
const NO_SHEET: u32 = 31;

/// The count of objects that are read back, of those refused though they are good objects, and of
/// those that are not even that.
fn counts(
    random: &mut Random,
    compared: &mut Compared,
    outcomes: &mut Outcomes,
    (name, damage): (&str, Damage),
) -> [usize; 3] {
    let mut counts = [0; 3];
    while counts.iter().sum::<usize>() < OBJECTS_OF_EACH {
        let sheet = match random.below(64) {
            0 => Plan::large_sheet(random),
            _ => Plan::small_sheet(random),
        };
        let whole = translate(&sheet).expect("within the limits");
        let mut translation = whole.clone();
        damage(random, &mut translation);
        if translation == whole {
            continue;
        }
        let outcome = compared.check(name, translation.text().as_bytes());
        outcomes.add(outcome);
        counts[match outcome {
            Ok(()) => 0,
            Err(refusal) if refusal.number == NO_SHEET => 1,
            Err(_) => 2,
        }] += 1;
    }
    counts
}

#[test]
fn damaged_orders() {
    let mut random = Random(25);
    let mut compared = Compared::new(READ_BACK, read_back_call);
    let mut outcomes = Outcomes::default();
    let mut all = [0; 3];
    for (name, damage, least) in DAMAGES {
        let counts = counts(&mut random, &mut compared, &mut outcomes, (name, damage));
        let enough = counts
            .iter()
            .zip(least)
            .all(|(&count, least)| count >= least);
        assert!(enough, "{name}: {counts:?} of at least {least:?}");
        for (all, count) in all.iter_mut().zip(counts) {
            *all += count;
        }
    }
    println!("{outcomes}");
    assert_eq!(all.iter().sum::<usize>(), DAMAGES.len() * OBJECTS_OF_EACH);
    let enough = all.iter().all(|&count| count >= 5000);
    assert!(enough, "{all:?} objects");
    // 31 has only one place, and so has 21: here V, T or N just over its limit
    for (number, least, places) in [
        (21, 20, 1),
        (22, 10, 1),
        (23, 500, 50),
        (24, 200, 20),
        (25, 1000, 40),
        (31, 10_000, 1),
    ] {
        outcomes.met("damaged orders, seed 25", number, least, places);
    }
}

/// Lists of random orders, mostly of a few.
#[test]
fn random_orders() {
    let name = "random orders, seed 26";
    let mut random = Random(26);
    let mut compared = Compared::new(READ_BACK, read_back_call);
    let mut outcomes = Outcomes::default();
    for _ in 0..60_000 {
        let length = match random.below(200) {
            0 => random.between(100, MOST_ORDERS),
            1..=20 => random.between(5, 40),
            _ => random.between(1, 5),
        };
        let mut translation = Translation {
            variables: random.below(4) as u32,
            temporaries: random.pick(&[0, 0, 0, 1, 2, 3]),
            orders: vec![STOP; length],
        };
        for place in 0..length - 1 {
            translation.orders[place] = some_order(&mut random, &translation);
        }
        outcomes.add(compared.check(name, translation.text().as_bytes()));
    }
    println!("{outcomes}");
    assert!(outcomes.accepted >= 5_000, "{name}: {outcomes}");
    outcomes.met(name, NO_SHEET, 10_000, 1);
}
