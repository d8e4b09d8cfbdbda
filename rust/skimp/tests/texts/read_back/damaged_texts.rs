//! Damaged texts of translations, and texts of random bytes.

use skimp_reference::agree::{Call, Compared, Outcomes, READ_BACK};
use skimp_reference::damage::texts::{BYTES, DAMAGES};
use skimp_reference::generate::Plan;
use skimp_reference::random::Random;
use skimp_reference::sheet::Sheet;
use skimp_reference::translate::translate;
use skimp_reference::Reply;

use crate::read_back_call;

const TEXTS_OF_EACH: usize = 2000;

fn some_sheet(random: &mut Random) -> Sheet {
    match random.below(32) {
        0 => Plan::large_sheet(random),
        _ => Plan::small_sheet(random),
    }
}

#[test]
fn damaged_texts() {
    let name = "damaged texts, seed 27";
    let mut random = Random(27);
    let mut compared = Compared::new(READ_BACK, read_back_call);
    let mut outcomes = Outcomes::default();
    for (damage_name, damage) in DAMAGES {
        let accepted = outcomes.accepted;
        for _ in 0..TEXTS_OF_EACH {
            let sheet = some_sheet(&mut random);
            let mut text = translate(&sheet).expect("within the limits").text().into();
            damage(&mut random, &mut text);
            while random.once_in(3) && text.len() > 1 {
                let (_, another) = random.pick(&DAMAGES);
                another(&mut random, &mut text);
            }
            outcomes.add(compared.check(damage_name, &text));
        }
        let refused = TEXTS_OF_EACH - (outcomes.accepted - accepted);
        assert!(refused >= 500, "{damage_name}: {refused} texts refused");
    }
    println!("{outcomes}");
    for (number, least, places) in [
        (21, 500, 1),
        (22, 5_000, 200),
        (23, 500, 40),
        (24, 500, 40),
        (25, 500, 40),
        (31, 800, 1),
    ] {
        outcomes.met(name, number, least, places);
    }
    assert!(outcomes.accepted >= 1000, "{name}: {outcomes}");
}

/// The archive with a mistake: the place of one refusal is one too high.
fn wrong_place(object: &[u8], buffer: &mut [u8]) -> Reply {
    let reply = read_back_call(object, buffer);
    Reply {
        value: reply.value + u32::from(reply.number == 25),
        ..reply
    }
}

/// It writes the start of a sheet although there is none.
fn writes_before(object: &[u8], buffer: &mut [u8]) -> Reply {
    let reply = read_back_call(object, buffer);
    if reply.number == 31 {
        buffer[0] ^= 1;
    }
    reply
}

/// It does not see text behind the last line.
fn sees_no_rest(object: &[u8], buffer: &mut [u8]) -> Reply {
    let stop = b"STOP\t-\t0\n";
    let place = object.windows(stop.len()).rposition(|part| part == stop);
    let length = place.map_or(object.len(), |place| place + stop.len());
    read_back_call(&object[..length], buffer)
}

#[test]
fn mistakes_are_found() {
    let calls: [Call; 3] = [wrong_place, writes_before, sees_no_rest];
    for (number, call) in calls.into_iter().enumerate() {
        let mut random = Random(29);
        let mut compared = Compared::new(READ_BACK, call);
        let found = (0..TEXTS_OF_EACH).any(|_| {
            let sheet = some_sheet(&mut random);
            let mut text = translate(&sheet).expect("within the limits").text().into();
            random.pick(&DAMAGES).1(&mut random, &mut text);
            compared.read(&text).is_err()
        });
        assert!(found, "mistake {number}");
    }
}

#[test]
fn random_bytes() {
    let name = "random bytes, seed 28";
    let mut random = Random(28);
    let mut compared = Compared::new(READ_BACK, read_back_call);
    let mut outcomes = Outcomes::default();
    for _ in 0..10_000 {
        let length = random.below(64);
        let header: &[u8] = random.pick(&[b"", b"BOX\t", b"BOX\t1\t1\t2\n", b"BOX\t0\t0\t1\n"]);
        let tail: Vec<u8> = match random.below(2) {
            0 => random.bytes(length),
            _ => (0..length).map(|_| random.pick(BYTES)).collect(),
        };
        outcomes.add(compared.check(name, &[header, &tail].concat()));
    }
    outcomes.met(name, 21, 2000, 1);
    outcomes.met(name, 22, 2000, 1);
}
