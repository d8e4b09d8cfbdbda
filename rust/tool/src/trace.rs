//! The trace of a run: one line a step.

use crate::run::{ending, Running, GOING, STOPPED};
use skimp::Reply;
use std::fmt::Write;

/// The most steps of which a line is written.
pub const MOST_STEPS: u32 = 10_000;

/// Goes on step by step, and writes a line of each. Ends with the run, with its budget, or after
/// `MOST_STEPS`. The reply has the steps taken.
pub fn trace(running: &mut Running, start: Reply, budget: u32, text: &mut String) -> Reply {
    let mut reply = start;
    *text += "  step order                              ACC\n";
    while reply.number == GOING && reply.value < budget.min(MOST_STEPS) {
        let (order, sent) = (running.next_order(), running.sent());
        // "A fault is met even with no budget left": the reply may be of the order after this one
        let number = running.go(1).number;
        reply = Reply {
            number,
            value: reply.value + 1,
        };
        let record = running.order(order);
        let accumulator = running.accumulator();
        let note = note(running, order, &record, sent);
        let line = format!(
            "{:>6} {order:>5}  {record:<20} {accumulator:>11}{note}",
            reply.value
        );
        *text += &line;
        text.push('\n');
    }
    if !matches!(reply.number, GOING | STOPPED) {
        let order = running.next_order();
        let record = running.order(order);
        let ending = ending(reply.number);
        writeln!(text, "       {order:>5}  {record:<20} {ending}")
            .expect("a string takes all text");
    }
    if reply.number == GOING && reply.value < budget {
        writeln!(
            text,
            "  the trace ends after {} steps, the run goes on",
            reply.value
        )
        .expect("a string takes all text");
    }
    reply
}

/// What else a step did: a word that was stored, a number that was sent, where it goes on.
fn note(running: &Running, order: usize, record: &str, sent: usize) -> String {
    let next = running.next_order();
    let stored = record.strip_prefix("STR D ");
    if let Some(word) = stored.and_then(|word| word.parse().ok()) {
        return format!("  {} = {}", running.name(word), running.word(word));
    }
    if running.sent() > sent {
        return format!("  sends {}", running.number(sent));
    }
    if record == "STOP - 0" {
        return "  stops".to_string();
    }
    if next != order + 1 {
        return format!("  goes to {next}");
    }
    String::new()
}
