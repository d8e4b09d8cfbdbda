//! What divisions left, so that a test can say which roundings it met.

#[derive(Clone, Copy, Default)]
pub struct Rests {
    /// For each of `SIGNS`, how often each of `PARTS` was left.
    counts: [[usize; 4]; 4],
}

/// The signs of a dividend and its divisor. Zero has none.
const SIGNS: [&str; 4] = ["x/y", "x/-y", "-x/y", "-x/-y"];
/// What may be left of a divisor.
const PARTS: [&str; 4] = ["nothing", "less than half", "half", "more than half"];

impl Rests {
    /// Counts a division by a word that is not 0.
    pub fn add(&mut self, dividend: i32, divisor: i32) {
        let signs = 2 * usize::from(dividend < 0) + usize::from(divisor < 0);
        let whole = u64::from(divisor.unsigned_abs());
        let part = match u64::from(dividend.unsigned_abs()) % whole {
            0 => 0,
            rest if 2 * rest < whole => 1,
            rest if 2 * rest == whole => 2,
            _ => 3,
        };
        self.counts[signs][part] += 1;
    }

    /// Counts what others have counted.
    pub fn add_all(&mut self, others: &Rests) {
        let others = others.counts.as_flattened();
        for (count, other) in self.counts.as_flattened_mut().iter_mut().zip(others) {
            *count += other;
        }
    }

    /// Holds all that may be left, with all signs, to having been left `least` times.
    pub fn every_way(&self, source: &str, least: usize) {
        for (signs, counts) in SIGNS.iter().zip(self.counts) {
            for (part, count) in PARTS.iter().zip(counts) {
                assert!(
                    count >= least,
                    "{source}: {signs} left {part} {count} times"
                );
            }
        }
    }
}
