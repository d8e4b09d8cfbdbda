//! The meaning of each operation, worked out with Rust's own arithmetic.
//!
//! Most are worked out twice, by different means that must agree. A fault is given as its number.

const MODULUS: i64 = 1 << 32;

/// The word that equals `x` modulo 2^32.
fn wrap(x: i64) -> i32 {
    let pattern = x.rem_euclid(MODULUS);
    let signed = if pattern < MODULUS / 2 {
        pattern
    } else {
        pattern - MODULUS
    };
    i32::try_from(signed).expect("a word")
}

/// The one answer of two means.
fn agreed(operation: &str, a: i32, b: i32, first: i32, second: i32) -> i32 {
    assert_eq!(
        first, second,
        "the reference disagrees with itself: {operation} of {a} and {b}"
    );
    first
}

pub fn add(a: i32, b: i32) -> i32 {
    let sum = wrap(i64::from(a) + i64::from(b));
    agreed("add", a, b, sum, a.wrapping_add(b))
}

pub fn sub(a: i32, b: i32) -> i32 {
    let difference = wrap(i64::from(a) - i64::from(b));
    agreed("sub", a, b, difference, a.wrapping_sub(b))
}

pub fn mul(a: i32, b: i32) -> i32 {
    let product = wrap(i64::from(a) * i64::from(b));
    agreed("mul", a, b, product, a.wrapping_mul(b))
}

pub fn neg(a: i32) -> i32 {
    agreed("neg", a, 0, wrap(-i64::from(a)), a.wrapping_neg())
}

/// Bit by bit: the word whose bit is set where `f` of the two bits holds.
fn bitwise(a: i32, b: i32, f: fn(bool, bool) -> bool) -> i32 {
    let bit = |word: i32, place: u32| i64::from(word).rem_euclid(MODULUS) / (1 << place) % 2 == 1;
    let pattern = (0..32)
        .filter(|&place| f(bit(a, place), bit(b, place)))
        .map(|place| 1_i64 << place)
        .sum();
    wrap(pattern)
}

pub fn and(a: i32, b: i32) -> i32 {
    agreed("and", a, b, bitwise(a, b, |x, y| x && y), a & b)
}

pub fn or(a: i32, b: i32) -> i32 {
    agreed("or", a, b, bitwise(a, b, |x, y| x || y), a | b)
}

pub fn xor(a: i32, b: i32) -> i32 {
    agreed("xor", a, b, bitwise(a, b, |x, y| x != y), a ^ b)
}

pub fn not(a: i32) -> i32 {
    agreed("not", a, 0, wrap(-1 - i64::from(a)), !a)
}

pub fn cmp(a: i32, b: i32) -> i32 {
    let sign = (i64::from(a) - i64::from(b)).signum();
    agreed("cmp", a, b, wrap(sign), a.cmp(&b) as i32)
}

/// Whether `a` relates so to zero, the relation being given by its sign.
pub fn to_zero(relation: &str, a: i32) -> bool {
    match relation {
        "=" => a == 0,
        "#" => a != 0,
        "<" => a < 0,
        "<=" => a <= 0,
        ">" => a > 0,
        ">=" => a >= 0,
        _ => panic!("no relation {relation}"),
    }
}

/// The nearest whole number to the quotient, and of two as near the one farther from zero. Rust
/// rounds a fraction of its own so, too, and 64 bits hold it closely enough: a quotient of words that
/// is no half is farther from one than the fraction can be off.
pub fn div(a: i32, b: i32) -> Result<i32, u32> {
    if b == 0 {
        return Err(1);
    }
    let (dividend, divisor) = (i64::from(a), i64::from(b));
    let about = dividend / divisor;
    let distance = |quotient: i64| (dividend - quotient * divisor).abs();
    let nearest = (about - 1..=about + 1)
        .min_by_key(|&quotient| (distance(quotient), -quotient.abs()))
        .expect("three numbers");
    let rounded = (f64::from(a) / f64::from(b)).round() as i64;
    Ok(agreed("div", a, b, wrap(nearest), wrap(rounded)))
}

pub fn pow(a: i32, n: i32) -> Result<i32, u32> {
    let Ok(n_unsigned) = u32::try_from(n) else {
        return Err(2);
    };
    let power = a.wrapping_pow(n_unsigned);
    if n > 64 {
        return Ok(power);
    }
    let product = (0..n).fold(1, |product, _| mul(product, a));
    Ok(agreed("pow", a, n, product, power))
}

pub fn shl(a: i32, n: i32) -> Result<i32, u32> {
    if !(0..32).contains(&n) {
        return Err(3);
    }
    let product = wrap(i64::from(a) * (1 << n));
    Ok(agreed("shl", a, n, product, ((a as u32) << n) as i32))
}

pub fn shr(a: i32, n: i32) -> Result<i32, u32> {
    if !(0..32).contains(&n) {
        return Err(3);
    }
    let quotient = wrap(i64::from(a).rem_euclid(MODULUS) / (1 << n));
    Ok(agreed("shr", a, n, quotient, ((a as u32) >> n) as i32))
}
