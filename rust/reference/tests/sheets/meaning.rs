//! The meaning of random sheets against runs of their translation by the reference machine.

use skimp_reference::census::Census;
use skimp_reference::generate::Plan;
use skimp_reference::random::Random;
use skimp_reference::runs::Runs;
use skimp_reference::translate::translate;

#[test]
fn meaning() {
    let source = "meaning, seed 14";
    let mut random = Random(14);
    let (mut census, mut runs) = (Census::default(), Runs::default());
    for round in 0..6000 {
        let sheet = match round % 16 {
            0 => Plan::large_sheet(&mut random),
            1 => Plan::deep_sheet(&mut random),
            _ => Plan::small_sheet(&mut random),
        };
        let translation = translate(&sheet).expect("within the limits");
        let room = random.between(0, 12);
        runs.hold(
            source,
            &sheet,
            &translation,
            room,
            |object, state, output, budget| {
                let reply = skimp_reference::run(object, state, output, budget);
                (reply.number, reply.value)
            },
        );
        census.add(&sheet, &translation);
    }
    census.every_form(source, 50);
    runs.every_way(source, 10);
    assert!(runs.runs >= 40_000, "{} runs", runs.runs);
}
