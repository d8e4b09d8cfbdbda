//! Every source of some small kinds.

use skimp_reference::agree::{Compared, Outcomes, COMPILE};
use skimp_reference::writing::exhaustive::kinds;

use crate::compile_call;

#[test]
fn every_small_source() {
    let mut compared = Compared::new(COMPILE, compile_call);
    let mut all = Outcomes::default();
    for kind in kinds() {
        let mut outcomes = Outcomes::default();
        kind.every_source(|source| {
            let outcome = compared.check(kind.name, source);
            outcomes.add(outcome);
            all.add(outcome);
        });
        println!("{}: {outcomes}", kind.name);
    }
    assert!(all.texts >= 1_000_000, "{all}");
    assert!(all.accepted >= 50_000, "{all}");
}
