//! Each order by itself.

use skimp_reference::random::{Random, EDGES};
use skimp_reference::rests::Rests;

use crate::call::Call;
use crate::program::{order, state, Order, Program};
use crate::program::{WITH_ADDRESS, WITH_NOTHING, WITH_NUMBER, WITH_VALUE};

const RANDOM_PAIRS: usize = 300;
const HALVES: usize = 4000;
/// Where the order stands, and where it leads if it is a jump.
const PLACE: u32 = 1;
const TARGET: u32 = 3;

/// Every order with each of its kinds, apart from STOP.
fn every_order() -> Vec<(&'static str, char)> {
    let mut orders = vec![("STR", 'D')];
    for name in WITH_VALUE {
        orders.extend([(name, 'D'), (name, 'K')]);
    }
    orders.extend(WITH_NUMBER.map(|name| (name, 'K')));
    orders.extend(WITH_ADDRESS.map(|name| (name, 'A')));
    orders.extend(WITH_NOTHING.map(|name| (name, '-')));
    orders
}

/// A program with the order at PLACE and two words that it may name. The orders around it change
/// the accumulator in different ways, so that a wrong next order shows after one more step.
fn around(order_alone: Order) -> Program {
    Program {
        variables: 1,
        temporaries: 1,
        orders: vec![
            order("LOAD", 'K', 11),
            order_alone,
            order("LOAD", 'K', 22),
            order("LOAD", 'K', 33),
            order("STOP", '-', 0),
        ],
    }
}

/// Runs the order on an accumulator and an operand with budgets 0, 1 and 2, and gives the number
/// that budget 1 leads to.
fn run_alone(name: &'static str, kind: char, acc: u32, operand: u32, room: usize) -> u32 {
    let number = match kind {
        'D' => 3,
        'K' => operand,
        'A' => TARGET,
        _ => 0,
    };
    let object = around(order(name, kind, number)).text();
    let words = [0xDEAD_BEEF, 0x0BAD_CAFE, 0x1357_9BDF, operand];
    let mut call = Call {
        object,
        state: state(acc, PLACE, 1, 0, &words),
        output: vec![0x5A; 4 + 4 * room],
        budget: 0,
    };
    let numbers = [0, 1, 2].map(|budget| {
        call.budget = budget;
        let source = format!("{name} {kind} on {acc} and {operand}, budget {budget}");
        call.outcome(&source).number
    });
    assert_eq!(
        numbers[0], numbers[1],
        "{name}: a fault hangs on the budget"
    );
    numbers[1]
}

#[test]
fn every_order_on_edges_and_random_words() {
    let mut random = Random(2);
    let mut pairs: Vec<(u32, u32)> = Vec::new();
    for acc in EDGES {
        pairs.extend(EDGES.map(|operand| (acc, operand)));
    }
    pairs.extend((0..RANDOM_PAIRS).map(|_| (random.pattern(), random.pattern())));
    let orders = every_order();
    assert_eq!(orders.len(), 37);
    for (name, kind) in orders {
        let mut faults = 0;
        let mut clear = 0;
        for &(acc, operand) in &pairs {
            // a number in the object has no sign
            let operand = if kind == 'K' { operand >> 1 } else { operand };
            let number = run_alone(name, kind, acc, operand, (acc % 3) as usize);
            faults += usize::from(number != 0);
            clear += usize::from(number == 0);
        }
        let may_fault = match name {
            "DIV" | "SHL" | "SHR" | "SEND" => true,
            "EXP" => kind == 'D',
            _ => false,
        };
        assert_eq!(faults > 0, may_fault, "{name} {kind}: {faults} faults");
        assert!(clear >= 100, "{name} {kind}: {clear} without a fault");
    }
}

/// Dividends that leave about half of the word or the number by which they are divided.
#[test]
fn divisions_about_halves() {
    let mut random = Random(7);
    let mut rests = Rests::default();
    let mut by_numbers = 0;
    for _ in 0..HALVES {
        let (dividend, divisor) = random.about_half();
        let (acc, operand) = (dividend as u32, divisor as u32);
        assert_eq!(run_alone("DIV", 'D', acc, operand, 0), 0);
        rests.add(dividend, divisor);
        // a number in the object has no sign
        if divisor > 0 {
            assert_eq!(run_alone("DIV", 'K', acc, operand, 0), 0);
            by_numbers += 1;
        }
    }
    rests.every_way("divisions about halves, seed 7", 50);
    assert!(by_numbers >= HALVES / 4, "{by_numbers} by numbers");
}
