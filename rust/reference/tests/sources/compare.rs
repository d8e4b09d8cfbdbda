//! The comparison itself: the reference agrees with itself on random sources of every kind.

use skimp_reference::agree::{Compared, Outcomes, COMPILE};
use skimp_reference::compile;
use skimp_reference::random::Random;
use skimp_reference::source::read;
use skimp_reference::writing::exhaustive::kinds;
use skimp_reference::writing::{source, spelled_sheet, MAKINGS};

#[test]
fn every_outcome() {
    let mut random = Random(41);
    let mut compared = Compared::new(COMPILE, compile);
    let mut outcomes = Outcomes::default();
    let mut by_making = MAKINGS.map(|_| Outcomes::default());
    let mut bytes = 0;
    for _ in 0..50_000 {
        let (making, source) = source(&mut random);
        bytes += source.len();
        let outcome = compared.check("every outcome, seed 41", &source);
        outcomes.add(outcome);
        by_making[making as usize].add(outcome);
    }
    println!("{bytes} bytes; {outcomes}");
    for ((making, _), outcomes) in MAKINGS.iter().zip(by_making) {
        println!("{making:?}: {outcomes}");
    }
    outcomes.every_one("every outcome, seed 41", 20);
}

/// The reference's own call with buffers of every length.
#[test]
fn every_room() {
    let mut random = Random(44);
    let mut compared = Compared::new(COMPILE, compile);
    let mut too_short = 0;
    for _ in 0..200 {
        let (_, source) = spelled_sheet(&mut random);
        too_short += compared.check_rooms("rooms, seed 44", &source, |length| {
            (0..=length + 1).collect()
        });
    }
    assert!(too_short >= 10_000, "{too_short} buffers were too short");
}

/// What the small sources are read to.
#[test]
fn every_small_source() {
    let mut outcomes = Outcomes::default();
    for kind in kinds() {
        let mut of_kind = Outcomes::default();
        kind.every_source(|source| {
            let outcome = read(source).map(|_| ());
            of_kind.add(outcome);
            outcomes.add(outcome);
        });
        println!("{}: {of_kind}", kind.name);
    }
    println!("{outcomes}");
    assert!(outcomes.texts >= 1_000_000, "{outcomes}");
    assert!(outcomes.accepted >= 50_000, "{outcomes}");
}
