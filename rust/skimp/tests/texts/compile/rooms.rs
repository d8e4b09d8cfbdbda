//! Buffers of every length: on refusal every byte is as before, on acceptance the text stands in
//! front and the bytes behind it are as before.

use skimp_reference::agree::{Compared, COMPILE};
use skimp_reference::random::Random;
use skimp_reference::writing::{source, spelled_sheet, Making};

use crate::compile_call;

#[test]
fn every_room_of_small_texts() {
    let mut random = Random(54);
    let mut compared = Compared::new(COMPILE, compile_call);
    let mut too_short = 0;
    for _ in 0..400 {
        let source = spelled_sheet(&mut random).1;
        too_short += compared.check_rooms("rooms, seed 54", &source, |length| {
            (0..=length + 1).collect()
        });
    }
    assert!(too_short >= 50_000, "{too_short} buffers were too short");
}

#[test]
fn rooms_of_large_texts() {
    let mut random = Random(55);
    let mut compared = Compared::new(COMPILE, compile_call);
    let mut too_short = 0;
    for _ in 0..200 {
        let source = Making::Large.source(&mut random);
        too_short += compared.check_rooms("rooms, seed 55", &source, |length| {
            let around = length.saturating_sub(12)..=length + 12;
            [0, 1, length / 2].into_iter().chain(around).collect()
        });
    }
    assert!(too_short >= 1_500, "{too_short} buffers were too short");
}

/// "object buffer too short, all else well": 12 comes after every other refusal.
#[test]
fn rooms_of_any_source() {
    let mut random = Random(56);
    let mut compared = Compared::new(COMPILE, compile_call);
    let mut too_short = 0;
    for _ in 0..20_000 {
        let source = source(&mut random).1;
        too_short += compared.check_rooms("rooms, seed 56", &source, |length| {
            vec![0, 1, 9, length.saturating_sub(1), length, length + 1]
        });
    }
    assert!(too_short >= 10_000, "{too_short} buffers were too short");
}
