//! Safe functions over `libword_probe.a`, the proved arithmetic of SKIMP's words.
//!
//! A word is a 32-bit signed integer. The archive takes and gives its pattern, a `u32`.

// Sound to call with any arguments: the archive's functions are total and touch no memory of the
// caller's.
unsafe extern "C" {
    safe fn word_probe_add(a: u32, b: u32) -> u32;
    safe fn word_probe_sub(a: u32, b: u32) -> u32;
    safe fn word_probe_mul(a: u32, b: u32) -> u32;
    safe fn word_probe_and(a: u32, b: u32) -> u32;
    safe fn word_probe_or(a: u32, b: u32) -> u32;
    safe fn word_probe_xor(a: u32, b: u32) -> u32;
    safe fn word_probe_cmp(a: u32, b: u32) -> u32;
    safe fn word_probe_neg(a: u32) -> u32;
    safe fn word_probe_not(a: u32) -> u32;
    safe fn word_probe_to_zero(relation: u32, a: u32) -> u32;
    safe fn word_probe_div(a: u32, b: u32) -> u64;
    safe fn word_probe_pow(a: u32, n: u32) -> u64;
    safe fn word_probe_shl(a: u32, n: u32) -> u64;
    safe fn word_probe_shr(a: u32, n: u32) -> u64;
}

/// How a word may relate to zero, with the archive's numbers.
#[derive(Clone, Copy, Debug, PartialEq, Eq)]
pub enum Relation {
    Equal = 0,
    Unequal = 1,
    Less = 2,
    AtMost = 3,
    Greater = 4,
    AtLeast = 5,
}

/// Why an operation gives no word, with the numbers of document 01.
#[derive(Clone, Copy, Debug, PartialEq, Eq)]
pub enum Fault {
    ZeroDivisor = 1,
    NegativeExponent = 2,
    ShiftCount = 3,
}

/// Functions for the operations that give a word for all words.
macro_rules! total {
    ($($(#[$doc:meta])* $name:ident($($word:ident),+) = $probe:ident;)+) => {$(
        $(#[$doc])*
        pub fn $name($($word: i32),+) -> i32 {
            $probe($($word as u32),+) as i32
        }
    )+};
}

total! {
    /// The sum, which wraps.
    add(a, b) = word_probe_add;
    /// The difference, which wraps.
    sub(a, b) = word_probe_sub;
    /// The product, which wraps.
    mul(a, b) = word_probe_mul;
    /// The bits that both words have.
    and(a, b) = word_probe_and;
    /// The bits that either word has.
    or(a, b) = word_probe_or;
    /// The bits that just one of the words has.
    xor(a, b) = word_probe_xor;
    /// -1, 0 or 1, as `a` is less than, equal to or greater than `b`.
    cmp(a, b) = word_probe_cmp;
    /// The negation, which wraps.
    neg(a) = word_probe_neg;
    /// The bits that the word has not.
    not(a) = word_probe_not;
}

/// Functions for the operations that may fault. Each panics if the archive's reply has no meaning,
/// which is a defect of the archive.
macro_rules! partial {
    ($($(#[$doc:meta])* $name:ident($a:ident, $b:ident) = $probe:ident;)+) => {$(
        $(#[$doc])*
        pub fn $name($a: i32, $b: i32) -> Result<i32, Fault> {
            answer(stringify!($name), $a, $b, $probe($a as u32, $b as u32))
        }
    )+};
}

partial! {
    /// The quotient, rounded to the nearest whole number, halves away from zero. The least word
    /// divided by -1 is itself.
    div(a, b) = word_probe_div;
    /// `a` to the power `n`, which wraps.
    pow(a, n) = word_probe_pow;
    /// `a` shifted left by `n` bits. High bits are dropped.
    shl(a, n) = word_probe_shl;
    /// `a` shifted right by `n` bits. Zeros come in.
    shr(a, n) = word_probe_shr;
}

/// Whether `a` relates so to zero.
///
/// # Panics
///
/// If the archive replies neither 0 nor 1, which is a defect of the archive.
pub fn to_zero(relation: Relation, a: i32) -> bool {
    truth(relation, a, word_probe_to_zero(relation as u32, a as u32))
}

/// The meaning of a reply that is 0 or 1.
fn truth(relation: Relation, a: i32, reply: u32) -> bool {
    match reply {
        0 => false,
        1 => true,
        _ => panic!("libword_probe.a: {relation:?} of {a} replied {reply}, neither 0 nor 1"),
    }
}

/// The meaning of a reply that is number * 2^32 + value.
fn answer(operation: &str, a: i32, b: i32, reply: u64) -> Result<i32, Fault> {
    let number = reply >> 32;
    let value = reply as u32;
    match (number, value) {
        (0, _) => Ok(value as i32),
        (1, 0) => Err(Fault::ZeroDivisor),
        (2, 0) => Err(Fault::NegativeExponent),
        (3, 0) => Err(Fault::ShiftCount),
        _ => panic!(
            "libword_probe.a: {operation} of {a} and {b} replied number {number} and value {value}"
        ),
    }
}

#[cfg(test)]
mod tests {
    use super::*;

    #[test]
    fn answers_have_their_meaning() {
        let answer = |reply| answer("div", 7, 2, reply);
        assert_eq!(answer(0), Ok(0));
        assert_eq!(answer(0x7FFF_FFFF), Ok(i32::MAX));
        assert_eq!(answer(0xFFFF_FFFF), Ok(-1));
        assert_eq!(answer(1 << 32), Err(Fault::ZeroDivisor));
        assert_eq!(answer(2 << 32), Err(Fault::NegativeExponent));
        assert_eq!(answer(3 << 32), Err(Fault::ShiftCount));
    }

    #[test]
    #[should_panic(expected = "div of 7 and 2 replied number 4 and value 0")]
    fn another_number_panics() {
        let _ = answer("div", 7, 2, 4 << 32);
    }

    #[test]
    #[should_panic(expected = "div of 7 and 2 replied number 1 and value 7")]
    fn a_fault_with_a_value_panics() {
        let _ = answer("div", 7, 2, (1 << 32) + 7);
    }

    #[test]
    #[should_panic(expected = "Less of 7 replied 2")]
    fn another_truth_panics() {
        truth(Relation::Less, 7, 2);
    }

    // The enum has no such relation, so only the archive's own function shows it.
    #[test]
    fn a_relation_above_five_counts_as_five() {
        for relation in [6, 7, 8, 11, 256, 1 << 31, u32::MAX] {
            for a in [0, 1, i32::MAX, i32::MIN, -1] {
                assert_eq!(
                    word_probe_to_zero(relation, a as u32),
                    u32::from(a >= 0),
                    "relation {relation}, word {a}"
                );
            }
        }
    }
}
