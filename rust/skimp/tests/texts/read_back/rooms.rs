//! Buffers of every length: on refusal every byte is as before, on acceptance the text stands in
//! front and the bytes behind it are as before.

use skimp_reference::agree::{Compared, READ_BACK};
use skimp_reference::damage::{orders, texts};
use skimp_reference::generate::Plan;
use skimp_reference::random::Random;
use skimp_reference::translate::translate;

use crate::read_back_call;

#[test]
fn every_room_of_small_texts() {
    let mut random = Random(71);
    let mut compared = Compared::new(READ_BACK, read_back_call);
    let mut too_short = 0;
    for _ in 0..400 {
        let sheet = Plan::small_sheet(&mut random);
        let object = translate(&sheet).expect("within the limits").text();
        too_short += compared.check_rooms("rooms, seed 71", object.as_bytes(), |length| {
            (0..=length + 1).collect()
        });
    }
    assert!(too_short >= 30_000, "{too_short} buffers were too short");
}

#[test]
fn rooms_of_large_texts() {
    let mut random = Random(72);
    let mut compared = Compared::new(READ_BACK, read_back_call);
    let mut too_short = 0;
    for _ in 0..200 {
        let sheet = Plan::large_sheet(&mut random);
        let object = translate(&sheet).expect("within the limits").text();
        too_short += compared.check_rooms("rooms, seed 72", object.as_bytes(), |length| {
            let around = length.saturating_sub(12)..=length + 12;
            [0, 1, length / 2].into_iter().chain(around).collect()
        });
    }
    assert!(too_short >= 2_000, "{too_short} buffers were too short");
}

/// 32 comes after every other refusal.
#[test]
fn rooms_of_any_object() {
    let mut random = Random(73);
    let mut compared = Compared::new(READ_BACK, read_back_call);
    let mut too_short = 0;
    for _ in 0..10_000 {
        let sheet = Plan::small_sheet(&mut random);
        let mut translation = translate(&sheet).expect("within the limits");
        if random.once_in(2) {
            random.pick(&orders::DAMAGES).1(&mut random, &mut translation);
        }
        let mut object = translation.text().into_bytes();
        if random.once_in(4) {
            random.pick(&texts::DAMAGES).1(&mut random, &mut object);
        }
        too_short += compared.check_rooms("rooms, seed 73", &object, |length| {
            vec![0, 1, 9, length.saturating_sub(1), length, length + 1]
        });
    }
    assert!(too_short >= 10_000, "{too_short} buffers were too short");
}
