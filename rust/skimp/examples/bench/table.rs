//! The tables: a line for each input, and of an input of two sizes a line for each.

use std::time::Duration;

use crate::inputs::Size;

/// What was measured of an input.
pub struct Line {
    pub name: &'static str,
    pub size: Option<Size>,
    /// The bytes that were read, or the steps.
    pub count: usize,
    /// The archive's least time and the reference's.
    pub least: [Duration; 2],
}

/// Prints a table line by line.
pub struct Table {
    /// The last line's name, and the archive's time for a byte or a step, if it had a size.
    before: Option<(&'static str, f64)>,
}

impl Table {
    pub fn new(call: &str, counted: &str) -> Table {
        println!(
            "{call:<22}{:>8}{counted:>12}{:>11}{:>9}{:>8}{:>9}",
            "size", "proved ns", "Rust ns", "ratio", "growth"
        );
        Table { before: None }
    }

    /// Prints a line. The growth is the archive's time for a byte or a step, over that of the same
    /// input at half the size.
    pub fn line(&mut self, line: &Line) {
        let nanoseconds = |time: Duration| time.as_secs_f64() * 1e9 / line.count as f64;
        let [ours, other] = line.least.map(nanoseconds);
        let size = match line.size {
            Some(size) => format!("{}/{}", size.variables, size.orders + 1),
            None => String::new(),
        };
        let growth = match self.before {
            Some((name, before)) if name == line.name => format!("{:.2}", ours / before),
            _ => String::new(),
        };
        println!(
            "{:<22}{size:>8}{:>12}{ours:>11.2}{other:>9.2}{:>8.2}{growth:>9}",
            line.name,
            line.count,
            ours / other
        );
        self.before = line.size.map(|_| (line.name, ours));
    }
}
