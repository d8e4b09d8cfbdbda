//! Objects beside those of the sources, most of them such as no source has.

use crate::inputs::{orders, Input, Size, MOST_LEVELS};

pub fn all() -> Vec<Input> {
    [
        of_sizes("jumps to the end", |count| jumps(count, |_| count)),
        of_sizes("jumps turned", |count| jumps(count, |place| count - place)),
        of_sizes("far conditions", far_conditions),
        of_sizes("inner conditions", inner_conditions),
        of_sizes("SKIPs in a row", skips),
        of_sizes("chain of OR", |count| chain(count, "OR K 0")),
        of_sizes("chain of SHL", |count| chain(count, "SHL K 2147483647")),
        of_sizes("chain of NEG", |count| chain(count, "NEG - 0")),
    ]
    .into_iter()
    .flatten()
    .collect()
}

/// An object of each size, given its orders by how many may stand before STOP. They have spaces for
/// tabs.
fn of_sizes(name: &'static str, orders: impl Fn(usize) -> Vec<String>) -> [Input; 2] {
    Input::of_sizes(name, |size: Size| object(&orders(size.orders)))
}

/// One variable and no temporaries.
fn object(orders: &[String]) -> String {
    let (count, lines) = (orders.len() + 1, orders.join("\n"));
    let text = format!("BOX 1 0 {count}\n{lines}\nSTOP - 0\n");
    text.replace(' ', "\t")
}

/// As many jumps as there may be, by where each leads.
fn jumps(most: usize, target: impl Fn(usize) -> usize) -> Vec<String> {
    let jump = |place| format!("JMP A {}", target(place));
    (0..most).map(jump).collect()
}

/// As many conditions as fit, each with a jump to one far off.
fn far_conditions(most: usize) -> Vec<String> {
    let count = most / 4;
    let condition = |number: usize| {
        let past = 4 * (number + 1);
        let far = 4 * ((number + count / 2) % count);
        let text = format!("LOAD D 2;CMP D 2;BNE A {past};JMP A {far}");
        orders(&text)
    };
    (0..count).flat_map(condition).collect()
}

/// Conditions without ELSE in each other, all parts ending together, as often as fits.
fn inner_conditions(most: usize) -> Vec<String> {
    let size = 3 * MOST_LEVELS + 1;
    let nest = |number: usize| {
        let end = size * (number + 1);
        let condition = format!("LOAD D 2;CMP D 2;BNE A {end};").repeat(MOST_LEVELS);
        orders(&format!("{condition}JMP A 0"))
    };
    (0..most / size).flat_map(nest).collect()
}

/// Conditions in the first parts of each other, so that each SKIP leads to the next one, as often as
/// fits.
fn skips(most: usize) -> Vec<String> {
    // a SKIP and a jump behind each part
    let size = 5 * MOST_LEVELS + 1;
    let nest = |number: usize| {
        let first = size * number;
        let innermost = first + 3 * MOST_LEVELS + 1;
        let branch = |level: usize| {
            let part = innermost + 2 * (MOST_LEVELS - 1 - level);
            format!("LOAD D 2;CMP D 2;BNE A {};", part + 1)
        };
        let skip = |level: usize| format!(";SKIP A {};JMP A 0", innermost + 2 * level + 2);
        let open: String = (0..MOST_LEVELS).map(branch).collect();
        let close: String = (0..MOST_LEVELS).map(skip).collect();
        orders(&format!("{open}JMP A 0{close}"))
    };
    (0..most / size).flat_map(nest).collect()
}

/// One instruction of all orders, the same over and over.
fn chain(most: usize, order: &str) -> Vec<String> {
    let mut orders = vec![order.to_string(); most];
    orders[0] = "LOAD D 2".to_string();
    orders[most - 1] = "STR D 2".to_string();
    orders
}
