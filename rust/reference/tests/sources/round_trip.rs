//! Random sheets, written as source and read again.

use skimp_reference::census::Census;
use skimp_reference::generate::Plan;
use skimp_reference::limits::MOST_SOURCE;
use skimp_reference::random::Random;
use skimp_reference::sheet::Sheet;
use skimp_reference::source::read;
use skimp_reference::translate::translate;
use skimp_reference::writing::spelling::Style;
use skimp_reference::writing::{program, spelled_sheet};

fn check(census: &mut Census, sheet: &Sheet, source: &[u8]) {
    let got = read(source);
    assert!(
        got.as_ref() == Ok(sheet),
        "{}\nis read to {:?}\nand not to {}",
        String::from_utf8_lossy(source),
        got.map(|sheet| sheet.text()),
        sheet.text()
    );
    census.add(sheet, &translate(sheet).expect("within the limits"));
}

#[test]
fn spelled_sheets() {
    let mut random = Random(31);
    let mut census = Census::default();
    for _ in 0..100_000 {
        let (sheet, source) = spelled_sheet(&mut random);
        check(&mut census, &sheet, &source);
    }
    assert_eq!(census.sheets, 100_000);
    census.every_form("spelled sheets", 200);
    for depth in 0..=16 {
        let count = census.with_depth(depth);
        assert!(count >= 10, "{count} sheets with {depth} levels");
    }
    assert!(census.with_instructions(0) >= 1000);
    for comparisons in 1..=16 {
        let count = census.conditions.with(comparisons);
        assert!(count >= 20, "{count} IFs of {comparisons} comparisons");
    }
    for variables in [0, 1, 63, 64, 65, 127, 128] {
        assert!(census.with_variables(variables) >= 1000, "V {variables}");
    }
}

/// Those whose statements fit, in a source that is not too long.
#[test]
fn large_sheets() {
    let mut random = Random(32);
    let mut census = Census::default();
    for _ in 0..2500 {
        let sheet = Plan::large_program(&mut random);
        let Some(statements) = program::write(&mut random, &sheet) else {
            continue;
        };
        let source = Style::random(&mut random).source(&mut random, &statements);
        if source.len() <= MOST_SOURCE {
            check(&mut census, &sheet, &source);
        }
    }
    println!("{} sheets", census.sheets);
    assert!(census.sheets >= 500, "{} sheets", census.sheets);
    for (orders, least) in [(1023, 50), (1024, 50), (1025, 50), (2047, 5), (2048, 100)] {
        let count = census.with_orders(orders);
        assert!(count >= least, "{count} sheets with {orders} orders");
    }
    for variables in [0, 1, 63, 64, 65, 127, 128] {
        let count = census.with_variables(variables);
        assert!(count >= 10, "{count} sheets with V {variables}");
    }
}
