//! Random sources of every kind: whole, damaged, of random tokens, and at the limits.

use skimp_reference::agree::{Call, Compared, Outcomes, COMPILE};
use skimp_reference::random::Random;
use skimp_reference::writing::{source, MAKINGS};
use skimp_reference::Reply;

use crate::compile_call;

/// Those of each seed.
const SOURCES: usize = 120_000;

/// Holds random sources to the rules, and every outcome to having been met.
fn hold(seed: u64) {
    let name = format!("random sources, seed {seed}");
    let mut random = Random(seed);
    let mut compared = Compared::new(COMPILE, compile_call);
    let mut outcomes = Outcomes::default();
    let mut by_making = MAKINGS.map(|_| Outcomes::default());
    for _ in 0..SOURCES {
        let (making, source) = source(&mut random);
        let outcome = compared.check(&name, &source);
        outcomes.add(outcome);
        by_making[making as usize].add(outcome);
    }
    println!("{outcomes}");
    for ((making, _), outcomes) in MAKINGS.iter().zip(&by_making) {
        println!("{making:?}: {outcomes}");
    }
    assert_eq!(outcomes.texts, SOURCES);
    outcomes.every_one(&name, 100);
    // 1 has only one place
    for number in (2..=11).chain([13]) {
        let (_, places) = outcomes.refused(number);
        assert!(places >= 10, "{name}: {number} at {places} places");
    }
}

#[test]
fn first_seed() {
    hold(51);
}

#[test]
fn second_seed() {
    hold(53);
}

/// The archive with a mistake: the place of one refusal is one too high.
fn wrong_place(source: &[u8], buffer: &mut [u8]) -> Reply {
    let reply = compile_call(source, buffer);
    Reply {
        value: reply.value + u32::from(reply.number == 11),
        ..reply
    }
}

/// It writes a byte behind the text.
fn writes_behind(source: &[u8], buffer: &mut [u8]) -> Reply {
    let reply = compile_call(source, buffer);
    if reply.number == 0 {
        buffer[reply.value as usize] ^= 1;
    }
    reply
}

/// It writes the start of an object although it refuses the source.
fn writes_before(source: &[u8], buffer: &mut [u8]) -> Reply {
    let reply = compile_call(source, buffer);
    if reply.number == 9 {
        buffer[0] ^= 1;
    }
    reply
}

#[test]
fn mistakes_are_found() {
    let calls: [Call; 3] = [wrong_place, writes_behind, writes_before];
    for call in calls {
        let mut random = Random(52);
        let mut compared = Compared::new(COMPILE, call);
        let found = (0..SOURCES).any(|_| compared.read(&source(&mut random).1).is_err());
        assert!(found);
    }
}
