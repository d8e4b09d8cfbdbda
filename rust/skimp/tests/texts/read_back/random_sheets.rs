//! Random sheets of every form: their translations are read back to them.

use skimp_reference::agree::{Compared, READ_BACK};
use skimp_reference::census::Census;
use skimp_reference::generate::Plan;
use skimp_reference::random::Random;

use super::check_sheet;
use crate::read_back_call;

#[test]
fn small_sheets() {
    let name = "small sheets, seed 21";
    let mut random = Random(21);
    let mut compared = Compared::new(READ_BACK, read_back_call);
    let mut census = Census::default();
    for _ in 0..60_000 {
        let sheet = Plan::small_sheet(&mut random);
        let translation = check_sheet(&mut compared, name, &sheet);
        census.add(&sheet, &translation);
    }
    assert_eq!(census.sheets, 60_000);
    census.every_form(name, 200);
    for orders in 1..=40 {
        assert!(census.with_orders(orders) >= 600, "{name}: N {orders}");
    }
    assert!(census.with_instructions(0) >= 600, "{name}");
}

#[test]
fn large_sheets() {
    let name = "large sheets, seed 22";
    let mut random = Random(22);
    let mut compared = Compared::new(READ_BACK, read_back_call);
    let mut census = Census::default();
    for _ in 0..1500 {
        let sheet = Plan::large_sheet(&mut random);
        let translation = check_sheet(&mut compared, name, &sheet);
        census.add(&sheet, &translation);
    }
    assert_eq!(census.sheets, 1500);
    census.every_form(name, 100);
    for depth in 0..=16 {
        let count = census.with_depth(depth);
        assert!(count >= 5, "{name}: {count} sheets with {depth} levels");
    }
    // no sheet uses exactly one temporary
    for temporaries in (0..=32).filter(|&temporaries| temporaries != 1) {
        let count = census.with_temporaries(temporaries);
        assert!(count >= 2, "{name}: {count} sheets with T {temporaries}");
    }
    for variables in [0, 1, 63, 64, 65, 127, 128] {
        let count = census.with_variables(variables);
        assert!(count >= 10, "{name}: {count} sheets with V {variables}");
    }
    for (orders, least) in [(1023, 75), (1024, 75), (1025, 75), (2047, 35), (2048, 500)] {
        let count = census.with_orders(orders);
        assert!(count >= least, "{name}: {count} sheets with N {orders}");
    }
}
