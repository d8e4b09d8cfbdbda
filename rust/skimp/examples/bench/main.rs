//! The archive's three calls against those of the reference, which is plain Rust written for speed.
//!
//! Both get the same bytes and must leave the same. The rounds alternate, so that a change of the
//! machine's speed meets both, and the least time of each counts. An input at a limit is measured at
//! half the limits, too: its size is that of the limits, variables and orders.

mod inputs;
mod objects;
mod runs;
mod sources;
mod table;
mod texts;

fn main() {
    texts::report();
    runs::report();
}
