//! The archive's operations against the reference.

mod reference;

use skimp_word::{add, and, cmp, div, mul, neg, not, or, pow, shl, shr, sub, to_zero, xor};
use skimp_word::{Fault, Relation};

type Unary = fn(i32) -> i32;
type Binary = fn(i32, i32) -> i32;
type Partial = fn(i32, i32) -> Result<i32, Fault>;
type PartialReference = fn(i32, i32) -> Result<i32, u32>;

const UNARY: [(&str, Unary, Unary); 2] =
    [("neg", neg, reference::neg), ("not", not, reference::not)];

const BINARY: [(&str, Binary, Binary); 7] = [
    ("add", add, reference::add),
    ("sub", sub, reference::sub),
    ("mul", mul, reference::mul),
    ("and", and, reference::and),
    ("or", or, reference::or),
    ("xor", xor, reference::xor),
    ("cmp", cmp, reference::cmp),
];

/// Each with the number of its fault.
const PARTIAL: [(&str, usize, Partial, PartialReference); 4] = [
    ("div", 1, div, reference::div),
    ("pow", 2, pow, reference::pow),
    ("shl", 3, shl, reference::shl),
    ("shr", 3, shr, reference::shr),
];

const RELATIONS: [(Relation, &str); 6] = [
    (Relation::Equal, "="),
    (Relation::Unequal, "#"),
    (Relation::Less, "<"),
    (Relation::AtMost, "<="),
    (Relation::Greater, ">"),
    (Relation::AtLeast, ">="),
];

#[rustfmt::skip]
const EDGES: [i32; 72] = [
    0, 1, 2, 3, 5, 7, 10, 16, 30, 31, 32, 33, 63, 64, 65,
    -1, -2, -3, -5, -7, -10, -16, -30, -31, -32, -33, -64,
    127, 128, 255, 256, 257, -128, -256,
    32767, 32768, -32768, -32769, 46340, 46341, -46340, -46341,
    65535, 65536, 65537, -65535, -65536, -65537, 16777215, 16777216,
    0x3FFF_FFFF, 0x4000_0000, 0x4000_0001, -0x4000_0000, -0x4000_0001,
    0x5555_5555, 0xAAAA_AAAA_u32 as i32, 0x0F0F_0F0F, 0xF0F0_F0F0_u32 as i32,
    2147483640, 2147483641, 2147483642, 2147483643, 2147483644, 2147483645, 2147483646, i32::MAX,
    i32::MIN, i32::MIN + 1, i32::MIN + 2, i32::MIN + 7, i32::MIN + 8,
];

/// Dividends, divisors and quotients, worked out by hand.
#[rustfmt::skip]
const QUOTIENTS: [(i32, i32, i32); 65] = [
    (7, 2, 4), (-7, 2, -4), (7, -2, -4), (-7, -2, 4),
    (5, 2, 3), (-5, 2, -3), (5, -2, -3), (-5, -2, 3),
    (1, 2, 1), (-1, 2, -1), (1, -2, -1), (-1, -2, 1),
    (3, 2, 2), (-3, 2, -2), (3, -2, -2), (-3, -2, 2),
    (1, 3, 0), (-1, 3, 0), (1, -3, 0), (-1, -3, 0),
    (2, 3, 1), (-2, 3, -1), (2, -3, -1), (-2, -3, 1),
    (4, 3, 1), (-4, 3, -1), (4, -3, -1), (-4, -3, 1),
    (5, 3, 2), (-5, 3, -2), (5, -3, -2), (-5, -3, 2),
    (0, 1, 0), (0, -1, 0), (0, 2, 0), (0, i32::MAX, 0), (0, i32::MIN, 0),
    (i32::MIN, -1, i32::MIN), (i32::MIN, 1, i32::MIN), (i32::MAX, -1, -2147483647),
    (i32::MIN, 2, -1073741824), (i32::MIN, -2, 1073741824),
    (i32::MIN, 3, -715827883), (i32::MIN, -3, 715827883),
    (i32::MAX, 2, 1073741824), (i32::MAX, -2, -1073741824),
    (-2147483647, 2, -1073741824), (-2147483647, -2, 1073741824),
    (i32::MAX, 3, 715827882), (i32::MAX, -3, -715827882),
    (i32::MIN, i32::MIN, 1), (i32::MIN, i32::MAX, -1), (i32::MIN, -2147483647, 1),
    (i32::MAX, i32::MIN, -1), (-2147483647, i32::MIN, 1),
    (1073741823, i32::MIN, 0), (1073741824, i32::MIN, -1), (1073741825, i32::MIN, -1),
    (-1073741823, i32::MIN, 0), (-1073741824, i32::MIN, 1), (-1073741825, i32::MIN, 1),
    (1073741823, i32::MAX, 0), (1073741824, i32::MAX, 1),
    (1073741823, 2147483646, 1), (1073741822, 2147483646, 0),
];

/// Divisors about which dividends are chosen that leave half of them, or nearly so.
#[rustfmt::skip]
const DIVISORS: [i32; 46] = [
    1, 2, 3, 4, 5, 6, 7, 8, 9, 10, 99, 100, 65535, 65536, 46341,
    -1, -2, -3, -4, -5, -6, -7, -8, -9, -10, -99, -100, -65535, -65536, -46341,
    0x3FFF_FFFF, 0x4000_0000, 0x4000_0001, -0x3FFF_FFFF, -0x4000_0000, -0x4000_0001,
    0x5555_5554, 0x5555_5555, i32::MAX - 2, i32::MAX - 1, i32::MAX,
    i32::MIN, i32::MIN + 1, i32::MIN + 2, i32::MIN + 3, -0x5555_5556,
];

const RANDOM_PAIRS: usize = 1_000_000;
const SEED: u64 = 1;
const HALVES_SEED: u64 = 2;

/// The generator splitmix64.
struct Random(u64);

impl Random {
    fn bits(&mut self) -> u64 {
        self.0 = self.0.wrapping_add(0x9E37_79B9_7F4A_7C15);
        let mut z = self.0;
        z = (z ^ (z >> 30)).wrapping_mul(0xBF58_476D_1CE4_E5B9);
        z = (z ^ (z >> 27)).wrapping_mul(0x94D0_49BB_1331_11EB);
        z ^ (z >> 31)
    }

    fn word(&mut self) -> i32 {
        (self.bits() >> 32) as i32
    }

    /// A word from `low` to `high`, both included.
    fn between(&mut self, low: i32, high: i32) -> i32 {
        low + (self.bits() % (high - low + 1) as u64) as i32
    }

    fn edge(&mut self) -> i32 {
        EDGES[self.bits() as usize % EDGES.len()]
    }

    /// Half of the second operands are small: shift counts, exponents and divisors.
    fn pair(&mut self) -> (i32, i32) {
        let a = match self.between(0, 7) {
            0 => self.between(-20, 20),
            1 => self.edge(),
            _ => self.word(),
        };
        let b = match self.between(0, 7) {
            0..=2 => self.between(-2, 40),
            3 => self.between(-100, 100),
            4 => self.edge(),
            5 => a.wrapping_add(self.between(-1, 1)),
            _ => self.word(),
        };
        (a, b)
    }

    /// A divisor, and a multiple of it with half of it, or one more or less.
    fn about_half(&mut self) -> (i32, i32) {
        loop {
            let b = match self.between(0, 3) {
                0 => self.word() >> self.between(0, 31),
                1 => self.edge(),
                _ => self.between(-40, 40),
            };
            let word = self.word() >> self.between(0, 31);
            // Rust gives no remainder by 0, nor for the least word by -1, where it is 0
            let multiple = word - word.checked_rem(b).unwrap_or(0);
            let half = i64::from(b / 2) + i64::from(self.between(-1, 1));
            if let Ok(a) = i32::try_from(i64::from(multiple) + half) {
                return (a, b);
            }
        }
    }
}

/// Divisions are tallied of which twice the rest is at most so much more or less than the divisor.
/// With an odd divisor the difference is odd.
const NEAR: i64 = 2;

/// What was met.
#[derive(Default)]
struct Tally {
    pairs: usize,
    /// For each of PARTIAL, how many values and how many of each fault.
    answers: [[usize; 4]; PARTIAL.len()],
    /// For each sign of dividend and divisor, how many divisions left half of the divisor or nearly
    /// so, by that difference.
    halves: [[usize; 2 * NEAR as usize + 1]; 4],
    /// How many comparisons gave -1, 0 and 1.
    orders: [usize; 3],
    /// For each of RELATIONS, how often it failed and how often it held.
    truths: [[usize; 2]; RELATIONS.len()],
}

impl Tally {
    /// Holds every operation on a pair to the reference. `source` says where the pair is from.
    fn check(&mut self, source: &str, a: i32, b: i32) {
        self.pairs += 1;
        for (name, operation, expected) in UNARY {
            let (got, wanted) = (operation(a), expected(a));
            assert!(
                got == wanted,
                "{source}: {name} of {a}: the archive gives {got}, the reference {wanted}"
            );
        }
        for (name, operation, expected) in BINARY {
            let (got, wanted) = (operation(a, b), expected(a, b));
            assert!(
                got == wanted,
                "{source}: {name} of {a} and {b}: the archive gives {got}, the reference {wanted}"
            );
        }
        self.orders[(reference::cmp(a, b) + 1) as usize] += 1;
        for (index, (relation, sign)) in RELATIONS.into_iter().enumerate() {
            let (got, wanted) = (to_zero(relation, a), reference::to_zero(sign, a));
            assert!(
                got == wanted,
                "{source}: {a} {sign} 0: the archive gives {got}, the reference {wanted}"
            );
            self.truths[index][usize::from(got)] += 1;
        }
        for (index, (name, _, operation, expected)) in PARTIAL.into_iter().enumerate() {
            let got = operation(a, b).map_err(|fault| fault as u32);
            let wanted = expected(a, b);
            assert!(got == wanted,
                "{source}: {name} of {a} and {b}: the archive gives {got:?}, the reference {wanted:?}"
            );
            let number = got.err().unwrap_or(0) as usize;
            self.answers[index][number] += 1;
        }
        self.add_half(a, b);
    }

    /// Counts a division that leaves something, if that is about half of the divisor.
    fn add_half(&mut self, a: i32, b: i32) {
        let (size, divisor) = (i64::from(a).abs(), i64::from(b).abs());
        let rest = size.checked_rem(divisor).unwrap_or(0);
        let distance = 2 * rest - divisor;
        if rest > 0 && distance.abs() <= NEAR {
            let signs = 2 * usize::from(a < 0) + usize::from(b < 0);
            self.halves[signs][(distance + NEAR) as usize] += 1;
        }
    }

    /// Holds halves of each sign, and what lies about them, to having been met `least` times.
    fn meets_halves(&self, source: &str, least: usize) {
        let halves = self.halves;
        assert!(
            halves.as_flattened().iter().all(|&count| count >= least),
            "{source}: halves and about them, for each sign: {halves:?}"
        );
    }

    /// Holds the tally to the promised number of pairs, and to every kind of answer being met.
    fn finish(&self, source: &str, pairs: usize) {
        assert_eq!(self.pairs, pairs, "{source}: pairs");
        for ((name, fault, ..), answers) in PARTIAL.iter().zip(&self.answers) {
            let (values, faults) = (answers[0], answers[*fault]);
            assert!(values > 0, "{source}: no value of {name}");
            assert!(faults > 0, "{source}: no fault {fault} of {name}");
            assert_eq!(values + faults, pairs, "{source}: another fault of {name}");
        }
        self.meets_halves(source, 1);
        for (order, count) in (-1..=1).zip(self.orders) {
            assert!(count > 0, "{source}: no comparison gave {order}");
        }
        for ((_, sign), [failed, held]) in RELATIONS.iter().zip(self.truths) {
            assert!(failed > 0, "{source}: {sign} 0 never failed");
            assert!(held > 0, "{source}: {sign} 0 never held");
        }
    }
}

#[test]
fn edge_pairs() {
    let mut distinct = EDGES.to_vec();
    distinct.sort_unstable();
    distinct.dedup();
    assert_eq!(distinct.len(), EDGES.len(), "an edge word stands twice");

    let source = "edge words";
    let mut tally = Tally::default();
    for a in EDGES {
        for b in EDGES {
            tally.check(source, a, b);
        }
    }
    tally.finish(source, 72 * 72);
}

/// Checks as many random pairs as are promised, each chosen by `pair`, and gives what was met.
fn check_random(source: &str, seed: u64, pair: fn(&mut Random) -> (i32, i32)) -> Tally {
    let mut random = Random(seed);
    let mut tally = Tally::default();
    for _ in 0..RANDOM_PAIRS {
        let (a, b) = pair(&mut random);
        tally.check(source, a, b);
    }
    tally.finish(source, 1_000_000);
    tally
}

#[test]
fn random_pairs() {
    check_random(&format!("seed {SEED}"), SEED, Random::pair);
}

/// Dividends that leave half of their divisor, or up to two more or less: a multiple of it and half
/// of it, where that is a word.
#[test]
fn about_every_half() {
    let source = "halves of divisors";
    let mut tally = Tally::default();
    for b in DIVISORS {
        let most = i64::from(i32::MAX) / i64::from(b).abs();
        let quotients = (-4..=4).chain([-most, -most / 2, most / 2, most]);
        for multiple in quotients.map(|quotient| quotient * i64::from(b)) {
            let near = (-2..=2).map(|step| multiple + i64::from(b / 2) + step);
            for a in near.filter_map(|a| i32::try_from(a).ok()) {
                tally.check(source, a, b);
            }
        }
    }
    // a zero divisor, which is no half's
    tally.check(source, 1, 0);
    tally.finish(source, 2402);
}

#[test]
fn random_halves() {
    let source = format!("halves, seed {HALVES_SEED}");
    let tally = check_random(&source, HALVES_SEED, Random::about_half);
    tally.meets_halves(&source, 10_000);
}

/// The arithmetic readings of document 01, with those of request L3, of the archive.
#[test]
fn readings_of_document_01() {
    // -7/2, as -(7/2) and as (-7)/2
    assert_eq!(div(7, 2).map(neg), Ok(-4));
    assert_eq!(div(neg(7), 2), Ok(-4));
    // 2147483647+1
    assert_eq!(add(2147483647, 1), -2147483648);
    // -(\2147483647)
    assert_eq!(not(2147483647), -2147483648);
    assert_eq!(neg(not(2147483647)), -2147483648);
    // 0**0, 2**31, 2**32
    assert_eq!(pow(0, 0), Ok(1));
    assert_eq!(pow(2, 31), Ok(-2147483648));
    assert_eq!(pow(2, 32), Ok(0));
    // (\0)>>31
    assert_eq!(shr(not(0), 31), Ok(1));
    // 1/3*3
    assert_eq!(div(1, 3).map(|quotient| mul(quotient, 3)), Ok(0));
    // 6!!3
    assert_eq!(xor(6, 3), 5);
    // -2**2, which is -(2**2)
    assert_eq!(pow(2, 2).map(neg), Ok(-4));
    // 1<<32
    assert_eq!(shl(1, 32), Err(Fault::ShiftCount));
    // 2147483647 is not below \2147483647
    assert_eq!(cmp(2147483647, not(2147483647)), 1);
}

/// Quotients worked out by hand, of the archive.
#[test]
fn quotients_by_hand() {
    for (a, b, quotient) in QUOTIENTS {
        assert_eq!(div(a, b), Ok(quotient), "{a}/{b}");
    }
    for a in EDGES {
        assert_eq!(div(a, 0), Err(Fault::ZeroDivisor), "{a}/0");
    }
}

/// The reference on values worked out by hand. The archive has no part in it.
#[test]
fn reference_by_hand() {
    assert_eq!(reference::add(2147483647, 1), -2147483648);
    assert_eq!(reference::add(-2147483648, -1), 2147483647);
    assert_eq!(reference::add(2, -5), -3);
    assert_eq!(reference::sub(-2147483648, 1), 2147483647);
    assert_eq!(reference::sub(2, 5), -3);
    assert_eq!(reference::mul(-3, 7), -21);
    assert_eq!(reference::mul(65536, 65536), 0);
    assert_eq!(reference::mul(46341, 46341), -2147479015);
    assert_eq!(reference::neg(5), -5);
    assert_eq!(reference::neg(-2147483648), -2147483648);
    assert_eq!(reference::and(6, 3), 2);
    assert_eq!(reference::and(-1, -2147483648), -2147483648);
    assert_eq!(reference::or(6, 3), 7);
    assert_eq!(reference::or(1, -2147483648), -2147483647);
    assert_eq!(reference::xor(6, 3), 5);
    assert_eq!(reference::xor(-1, 1), -2);
    assert_eq!(reference::not(0), -1);
    assert_eq!(reference::not(2147483647), -2147483648);

    assert_eq!(reference::cmp(2147483647, -2147483648), 1);
    assert_eq!(reference::cmp(-2147483648, 1), -1);
    assert_eq!(reference::cmp(-7, -7), 0);
    for (sign, of_minus, of_zero, of_plus) in [
        ("=", false, true, false),
        ("#", true, false, true),
        ("<", true, false, false),
        ("<=", true, true, false),
        (">", false, false, true),
        (">=", false, true, true),
    ] {
        assert_eq!(reference::to_zero(sign, -2147483648), of_minus, "{sign}");
        assert_eq!(reference::to_zero(sign, 0), of_zero, "{sign}");
        assert_eq!(reference::to_zero(sign, 2147483647), of_plus, "{sign}");
    }

    for (a, b, quotient) in QUOTIENTS {
        assert_eq!(reference::div(a, b), Ok(quotient), "{a}/{b}");
    }
    for a in EDGES {
        assert_eq!(reference::div(a, 0), Err(1), "{a}/0");
    }

    assert_eq!(reference::pow(0, 0), Ok(1));
    assert_eq!(reference::pow(0, 1), Ok(0));
    assert_eq!(reference::pow(-2, 3), Ok(-8));
    assert_eq!(reference::pow(2, 31), Ok(-2147483648));
    assert_eq!(reference::pow(2, 32), Ok(0));
    assert_eq!(reference::pow(-1, 2147483647), Ok(-1));
    assert_eq!(reference::pow(-1, 2147483646), Ok(1));
    assert_eq!(reference::pow(2, 2147483647), Ok(0));
    // 3**100, 515377520732011331036461129765621272702107522001, modulo 2**32
    assert_eq!(reference::pow(3, 100), Ok(-818408495));
    assert_eq!(reference::pow(1, -1), Err(2));
    assert_eq!(reference::pow(0, -2147483648), Err(2));

    assert_eq!(reference::shl(3, 31), Ok(-2147483648));
    assert_eq!(reference::shl(-1, 4), Ok(-16));
    assert_eq!(reference::shl(7, 0), Ok(7));
    assert_eq!(reference::shl(1, 32), Err(3));
    assert_eq!(reference::shl(1, -1), Err(3));
    assert_eq!(reference::shr(-1, 31), Ok(1));
    assert_eq!(reference::shr(-16, 4), Ok(268435455));
    assert_eq!(reference::shr(-7, 0), Ok(-7));
    assert_eq!(reference::shr(1, 32), Err(3));
    assert_eq!(reference::shr(1, -1), Err(3));
}
