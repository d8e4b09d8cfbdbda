//! Random sheets, translated and read back.

use skimp_reference::agree::{Compared, READ_BACK};
use skimp_reference::census::Census;
use skimp_reference::condition::Joining;
use skimp_reference::count::counts;
use skimp_reference::generate::Plan;
use skimp_reference::random::Random;
use skimp_reference::run;
use skimp_reference::sheet::Sheet;
use skimp_reference::translate::{translate, without_limits};
use skimp_reference::untranslate::untranslate;

/// Translates a sheet and reads it back.
fn check(census: &mut Census, sheet: &Sheet) {
    let translation = translate(sheet).unwrap_or_else(|| panic!("refused:\n{}", sheet.text()));
    let back = untranslate(&translation);
    assert!(
        back.as_ref() == Some(sheet),
        "not read back:\n{}",
        sheet.text()
    );
    let parts = sheet.lines.iter().map(counts);
    let (orders, temporaries) = parts.fold((1, 0), |(orders, temporaries), part| {
        (orders + part.0, part.1.max(temporaries))
    });
    assert_eq!(orders as usize, translation.orders.len());
    assert_eq!(temporaries, translation.temporaries);
    census.add(sheet, &translation);
}

#[test]
fn small_sheets() {
    let mut random = Random(11);
    let mut census = Census::default();
    for _ in 0..100_000 {
        check(&mut census, &Plan::small_sheet(&mut random));
    }
    assert_eq!(census.sheets, 100_000);
    census.every_form("small sheets", 400);
    for depth in 0..=7 {
        let count = census.with_depth(depth);
        assert!(count >= 50, "{count} sheets with {depth} levels");
    }
    for orders in 1..=40 {
        assert!(census.with_orders(orders) >= 1000, "{orders} orders");
    }
    for comparisons in 1..=11 {
        let count = census.conditions.with(comparisons);
        assert!(count >= 30, "{count} IFs of {comparisons} comparisons");
    }
    assert!(census.with_instructions(0) >= 1000);
}

#[test]
fn large_sheets() {
    let mut random = Random(12);
    let mut census = Census::default();
    for _ in 0..2000 {
        check(&mut census, &Plan::large_sheet(&mut random));
    }
    census.every_form("large sheets", 100);
    for depth in 0..=16 {
        let count = census.with_depth(depth);
        assert!(count >= 5, "{count} sheets with {depth} levels");
    }
    // no sheet uses exactly one temporary
    for temporaries in (0..=32).filter(|&temporaries| temporaries != 1) {
        let count = census.with_temporaries(temporaries);
        assert!(count >= 2, "{count} sheets with {temporaries}");
    }
    assert_eq!(census.with_temporaries(1), 0);
    for comparisons in 1..=16 {
        let count = census.conditions.with(comparisons);
        assert!(count >= 100, "{count} IFs of {comparisons} comparisons");
    }
    for word in [Joining::And, Joining::Or] {
        let count = census.conditions.deep(word);
        assert!(count >= 500, "{count} runs of {word:?} in three others");
    }
    for variables in [0, 1, 63, 64, 65, 127, 128] {
        assert!(census.with_variables(variables) >= 10, "V {variables}");
    }
    for (orders, least) in [
        (1023, 100),
        (1024, 100),
        (1025, 100),
        (2047, 50),
        (2048, 700),
    ] {
        let count = census.with_orders(orders);
        assert!(count >= least, "{count} sheets with {orders} orders");
    }
}

/// Sheets at the limits, and past one of them by one.
#[test]
fn limits() {
    let mut random = Random(13);
    let mut census = Census::default();
    for one in [false, true] {
        for _ in 0..25 {
            for size in [
                [128, 32, 2048],
                // one below each, and where no limit is
                [127, 32, 2048],
                [128, 31, 2048],
                [128, 32, 2047],
                [65, 32, 1025],
                [64, 32, 1024],
            ] {
                check(&mut census, &Plan::exact_sheet(&mut random, size, one));
            }
            for over in [[129, 32, 2048], [128, 33, 2048], [128, 32, 2049]] {
                let sheet = Plan::exact_sheet(&mut random, over, one);
                assert!(translate(&sheet).is_none(), "{over:?}:\n{}", sheet.text());
                assert!(untranslate(&without_limits(&sheet)).is_none(), "{over:?}");
            }
        }
    }
    assert_eq!(census.with_orders(2048), 150);
    assert_eq!(census.with_temporaries(32), 250);
    assert_eq!(census.with_variables(128), 150);
    assert!(census.with_instructions(1) >= 5);
}

/// "header not of the form or over a limit"
#[test]
fn limits_of_headers() {
    let number = |[variables, temporaries, orders]: [usize; 3]| {
        let others = "NEG\t-\t0\n".repeat(orders - 1);
        let header = format!("BOX\t{variables}\t{temporaries}\t{orders}\n");
        let object = format!("{header}{others}STOP\t-\t0\n");
        let mut state = vec![0; 20 + 4 * (2 + variables + temporaries)];
        run(object.as_bytes(), &mut state, &mut [], 10_000).number
    };
    for within in [
        [63, 31, 1023],
        [64, 32, 1024],
        [65, 32, 1025],
        [127, 31, 2047],
        [128, 32, 2048],
    ] {
        assert_eq!(number(within), 20, "{within:?}");
    }
    for over in [[129, 32, 2048], [128, 33, 2048], [128, 32, 2049]] {
        assert_eq!(number(over), 21, "{over:?}");
    }
}

/// The reference's own call with buffers of every length.
#[test]
fn every_room() {
    let mut random = Random(15);
    let mut compared = Compared::new(READ_BACK, skimp_reference::read_back);
    let mut too_short = 0;
    for _ in 0..200 {
        let sheet = Plan::small_sheet(&mut random);
        let object = translate(&sheet).expect("within the limits").text();
        too_short += compared.check_rooms("rooms, seed 15", object.as_bytes(), |length| {
            (0..=length + 1).collect()
        });
    }
    assert!(too_short >= 10_000, "{too_short} buffers were too short");
}
