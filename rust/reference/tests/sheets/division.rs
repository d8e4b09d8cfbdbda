//! Request L3's division in both places of the reference where it is worked out: the meaning, on
//! instructions, and the machine, on orders.

use skimp_reference::interpret::Ending;
use skimp_reference::random::Random;
use skimp_reference::rests::Rests;
use skimp_reference::sheet::{Expression, Operator, Sign};

use crate::readings::{binary, number, unary, worth};

const LEAST: i32 = i32::MIN;
const MOST: i32 = i32::MAX;

/// Dividends, divisors and quotients, worked out by hand. Each stands for its four signs, but for
/// those with the least word, which is no other's negation.
const BY_HAND: [(i32, i32, i32); 28] = [
    (7, 2, 4),
    (1, 3, 0),
    (2, 3, 1),
    (5, 2, 3),
    (3, 2, 2),
    (1, 2, 1),
    (4, 3, 1),
    (5, 3, 2),
    (0, 1, 0),
    (0, MOST, 0),
    (3, 7, 0),
    (4, 7, 1),
    (2, 6, 0),
    (3, 6, 1),
    (4, 6, 1),
    (14, 4, 4),
    (MOST, 1, MOST),
    (MOST, 2, 1073741824),
    (MOST, 3, 715827882),
    (MOST, MOST, 1),
    (1073741823, MOST, 0),
    (1073741824, MOST, 1),
    (1073741823, 2147483646, 1),
    (1073741822, 2147483646, 0),
    // three halves of it are 2147483647.5
    (MOST, 1431655765, 1),
    (MOST, 1431655764, 2),
    (MOST, 1073741825, 2),
    (MOST, 1073741824, 2),
];

const OF_THE_LEAST_WORD: [(i32, i32, i32); 19] = [
    (LEAST, -1, LEAST),
    (LEAST, 1, LEAST),
    (LEAST, 2, -1073741824),
    (LEAST, -2, 1073741824),
    (LEAST, 3, -715827883),
    (LEAST, -3, 715827883),
    (LEAST, LEAST, 1),
    (LEAST, MOST, -1),
    (LEAST, -MOST, 1),
    (MOST, LEAST, -1),
    (-MOST, LEAST, 1),
    (1073741824, LEAST, -1),
    (1073741823, LEAST, 0),
    (1073741825, LEAST, -1),
    (-1073741824, LEAST, 1),
    (-1073741823, LEAST, 0),
    (-1073741825, LEAST, 1),
    (1, LEAST, 0),
    (0, LEAST, 0),
];

/// The expression of a word that may have a sign.
fn word(value: i32) -> Expression {
    match value {
        0.. => number(value as u32),
        LEAST => unary(Sign::Not, number(MOST as u32)),
        _ => unary(Sign::Neg, number(value.unsigned_abs())),
    }
}

/// The quotient by the meaning.
fn meant(dividend: i32, divisor: i32) -> Result<i32, Ending> {
    worth(binary(Operator::Div, word(dividend), word(divisor))).0
}

/// The quotient by the machine, or the number of its fault.
fn run(dividend: i32, divisor: i32) -> Result<i32, u32> {
    const OBJECT: &[u8] = b"BOX\t1\t0\t2\nDIV\tD\t2\nSTOP\t-\t0\n";
    let mut state = [0; 32];
    state[..4].copy_from_slice(&dividend.to_be_bytes());
    state[28..].copy_from_slice(&divisor.to_be_bytes());
    let reply = skimp_reference::run(OBJECT, &mut state, &mut [], 1);
    match reply.number {
        0 => Ok(i32::from_be_bytes(
            state[..4].try_into().expect("four bytes"),
        )),
        fault => Err(fault),
    }
}

fn check(dividend: i32, divisor: i32, quotient: i32) {
    let name = format!("{dividend}/{divisor}");
    assert_eq!(meant(dividend, divisor), Ok(quotient), "{name}: meaning");
    assert_eq!(run(dividend, divisor), Ok(quotient), "{name}: machine");
}

#[test]
fn by_hand() {
    for (dividend, divisor, quotient) in BY_HAND {
        check(dividend, divisor, quotient);
        check(-dividend, divisor, -quotient);
        check(dividend, -divisor, -quotient);
        check(-dividend, -divisor, quotient);
    }
    for (dividend, divisor, quotient) in OF_THE_LEAST_WORD {
        check(dividend, divisor, quotient);
    }
    for dividend in [0, 1, -1, MOST, LEAST] {
        assert_eq!(meant(dividend, 0), Err(Ending::ZeroDivisor), "{dividend}");
        assert_eq!(run(dividend, 0), Err(1), "{dividend}");
    }
}

/// Whether a whole number is the nearest to a quotient, and of two that are as near the one farther
/// from zero. There is just one such number.
fn is_rounded(dividend: i32, divisor: i32, quotient: i64) -> bool {
    let (dividend, divisor) = (i64::from(dividend), i64::from(divisor));
    let product = quotient * divisor;
    let twice = 2 * (dividend - product).abs();
    twice < divisor.abs() || twice == divisor.abs() && product.abs() > dividend.abs()
}

/// Holds the quotient of both to what it has to be, and counts the division.
fn check_rounded(rests: &mut Rests, dividend: i32, divisor: i32) {
    let wraps = (dividend, divisor) == (LEAST, -1);
    for quotient in [meant(dividend, divisor).ok(), run(dividend, divisor).ok()] {
        let quotient = i64::from(quotient.expect("a quotient"));
        let unwrapped = if wraps { -quotient } else { quotient };
        assert!(
            is_rounded(dividend, divisor, unwrapped),
            "{dividend}/{divisor} is not {quotient}"
        );
    }
    rests.add(dividend, divisor);
}

/// Every pair of small words, and of words about the ends and the middle of their range.
#[test]
fn every_pair_of_some() {
    let mut rests = Rests::default();
    for dividend in -60..=60 {
        for divisor in (-30..=30).filter(|&divisor| divisor != 0) {
            check_rounded(&mut rests, dividend, divisor);
        }
    }
    rests.every_way("small words", 100);
    let middles = [0, LEAST, LEAST / 2, LEAST / 3, MOST / 3, MOST / 2, MOST];
    let about = |middle: i32| (-3..=3).filter_map(move |step| middle.checked_add(step));
    let words: Vec<i32> = middles.into_iter().flat_map(about).collect();
    for &dividend in &words {
        for &divisor in words.iter().filter(|&&divisor| divisor != 0) {
            check_rounded(&mut rests, dividend, divisor);
        }
    }
}

#[test]
fn random_pairs() {
    let mut random = Random(16);
    let mut rests = Rests::default();
    for _ in 0..20_000 {
        let (dividend, divisor) = random.about_half();
        check_rounded(&mut rests, dividend, divisor);
        let words = [(); 2].map(|()| random.pattern() as i32);
        if words[1] != 0 {
            check_rounded(&mut rests, words[0], words[1]);
        }
    }
    rests.every_way("divisions, seed 16", 500);
}
