//! Orders that are nearly those of a joined condition: some are those of another sheet, the others are
//! no sheet's.

use crate::readings::read_back;

/// Holds lists of orders to having no sheet.
fn none(lists: &[&str]) {
    for orders in lists {
        assert_eq!(read_back(orders), None, "{orders}");
    }
}

fn sheet(orders: &str) -> String {
    read_back(orders).unwrap_or_else(|| panic!("no sheet: {orders}"))
}

/// A comparison of a number with 0 and its branch.
fn comparison(number: u32, branch: &str) -> String {
    format!("LOAD K {number}; CMP K 0; {branch}; ")
}

/// A run of AND of three, all of whose branches lead past the part.
fn three(count: u32) -> String {
    let comparisons = [1, 2, 3].map(|number| comparison(number, "BNE A 12"));
    format!(
        "COND K {count}; {}LOAD K 8; SEND - 0; STOP - 0",
        comparisons.concat()
    )
}

/// The number of COND is that of the comparisons. Those that it leaves out may be an IF of their own.
#[test]
fn other_counts() {
    assert_eq!(
        sheet(&three(3)),
        "SHEET 0 2; IF AND 3 = K1 K0 = K2 K0 = K3 K0; START; SEND K8; FINISH"
    );
    assert_eq!(
        sheet(&three(2)),
        "SHEET 0 3; IF AND 2 = K1 K0 = K2 K0; START; IF = K3 K0; START; SEND K8; FINISH; FINISH"
    );
    for count in [0, 1, 4, 5, 16, 17, 2147483647] {
        assert_eq!(read_back(&three(count)), None, "{count}");
    }
    // without COND they are three IFs
    let orders = three(3).replace("COND K 3; ", "").replace("A 12", "A 11");
    assert_eq!(
        sheet(&orders),
        "SHEET 0 4; IF = K1 K0; START; IF = K2 K0; START; IF = K3 K0; START; SEND K8; FINISH; \
         FINISH; FINISH"
    );
    // a run of OR is no such thing
    let either = |count: &str| {
        let comparisons = comparison(1, "BE A 7") + &comparison(2, "BNE A 9");
        format!("{count}{comparisons}LOAD K 8; SEND - 0; STOP - 0")
    };
    assert_eq!(
        sheet(&either("COND K 2; ")),
        "SHEET 0 2; IF OR 2 = K1 K0 = K2 K0; START; SEND K8; FINISH"
    );
    none(&[
        &either("COND K 1; "),
        &either("COND K 3; "),
        &either("").replace("A 7", "A 6").replace("A 9", "A 8"),
    ]);
}

/// COND stands before two comparisons or more, and nowhere else.
#[test]
fn other_places() {
    let both = "COND K 2; LOAD K 1; CMP K 0; BNE A 9; LOAD K 2; CMP K 0; BNE A 9; LOAD K 8; \
                SEND - 0; STOP - 0";
    assert!(read_back(both).is_some());
    none(&[
        // before a comparison alone
        "COND K 1; LOAD K 1; CMP K 0; BNE A 5; JMP A 0; STOP - 0",
        "COND K 2; LOAD K 1; CMP K 0; BNE A 5; JMP A 0; STOP - 0",
        "COND K 0; LOAD K 1; CMP K 0; BNE A 5; JMP A 0; STOP - 0",
        // before an instruction that is no IF
        "COND K 0; LOAD K 8; SEND - 0; STOP - 0",
        "COND K 1; LOAD K 8; SEND - 0; STOP - 0",
        "COND K 2; LOAD K 8; SEND - 0; STOP - 0",
        "COND K 0; JMP A 0; STOP - 0",
        "COND K 0; STOP - 0",
        "COND K 2; STOP - 0",
        // twice
        "COND K 2; COND K 2; LOAD K 1; CMP K 0; BNE A 10; LOAD K 2; CMP K 0; BNE A 10; LOAD K 8; \
         SEND - 0; STOP - 0",
        // among the orders of a comparison or between two, and behind them
        "LOAD K 1; COND K 2; CMP K 0; BNE A 9; LOAD K 2; CMP K 0; BNE A 9; LOAD K 8; SEND - 0; \
         STOP - 0",
        "LOAD K 1; CMP K 0; COND K 2; BNE A 9; LOAD K 2; CMP K 0; BNE A 9; LOAD K 8; SEND - 0; \
         STOP - 0",
        "COND K 2; LOAD K 1; COND K 2; CMP K 0; BNE A 10; LOAD K 2; CMP K 0; BNE A 10; LOAD K 8; \
         SEND - 0; STOP - 0",
        "COND K 2; LOAD K 1; CMP K 0; BNE A 10; COND K 2; LOAD K 2; CMP K 0; BNE A 10; LOAD K 8; \
         SEND - 0; STOP - 0",
        "LOAD K 1; CMP K 0; BNE A 9; LOAD K 2; CMP K 0; BNE A 9; COND K 2; LOAD K 8; SEND - 0; \
         STOP - 0",
        // in an expression
        "LOAD K 8; COND K 2; SEND - 0; STOP - 0",
        // an instruction among the comparisons, and too few of them
        "COND K 2; LOAD K 1; CMP K 0; BNE A 9; LOAD K 2; SEND - 0; LOAD K 8; CMP K 0; BNE A 10; \
         JMP A 0; STOP - 0",
        "COND K 2; LOAD K 1; CMP K 0; BNE A 6; LOAD K 8; SEND - 0; STOP - 0",
    ]);
    // between two IFs it is the second's
    let orders = "LOAD K 1; CMP K 0; BNE A 4; JMP A 4; COND K 2; LOAD K 1; CMP K 0; BNE A 12; \
                  LOAD K 2; CMP K 0; BNE A 12; JMP A 4; STOP - 0";
    assert_eq!(
        sheet(orders),
        "SHEET 0 4; IF = K1 K0; START; GOTO 3; FINISH; IF AND 2 = K1 K0 = K2 K0; START; GOTO 3; \
         FINISH"
    );
}

/// (1 %AND 2) %OR 3, with one of its branches led elsewhere.
fn with_target(order: &str, target: u32) -> Option<String> {
    let good =
        "COND K 3; LOAD K 1; CMP K 0; BNE A 7; LOAD K 2; CMP K 0; BE A 10; LOAD K 3; CMP K 0; \
                BNE A 13; LOAD K 8; SEND - 0; JMP A 0; STOP - 0";
    let name = order.split(' ').next().expect("a name");
    read_back(&good.replacen(order, &format!("{name} A {target}"), 1))
}

/// The first two branches, led to every order: to the next comparison that matters, to the part and past
/// it they are those of another condition.
#[test]
fn other_targets() {
    let whole = "OR 2 AND 2 = K1 K0 = K2 K0 = K3 K0";
    let good = [
        ("BNE A 7", 7, whole),
        ("BNE A 7", 10, "OR 3 # K1 K0 = K2 K0 = K3 K0"),
        ("BNE A 7", 13, "AND 2 = K1 K0 OR 2 = K2 K0 = K3 K0"),
        ("BE A 10", 10, whole),
        ("BE A 10", 13, "AND 2 OR 2 # K1 K0 # K2 K0 = K3 K0"),
    ];
    for order in ["BNE A 7", "BE A 10"] {
        for target in 0..=13 {
            let is_this = |it: &&(&str, u32, &str)| (it.0, it.1) == (order, target);
            let expected = good.iter().find(is_this).map(|(_, _, fields)| {
                format!("SHEET 0 3; IF {fields}; START; SEND K8; GOTO 1; FINISH")
            });
            assert_eq!(with_target(order, target), expected, "{order} to {target}");
        }
    }
}

/// The last branch leads past the part, which may end earlier.
#[test]
fn other_ends() {
    let shorter =
        "SHEET 0 3; IF OR 2 AND 2 = K1 K0 = K2 K0 = K3 K0; START; SEND K8; FINISH; GOTO 1";
    for target in 0..=12 {
        let expected = (target == 12).then_some(shorter);
        assert_eq!(
            with_target("BNE A 13", target).as_deref(),
            expected,
            "{target}"
        );
    }
}

/// "past the part" is "right after their part", also where a SKIP stands there.
#[test]
fn past_an_else() {
    let good = "COND K 2; LOAD K 1; CMP K 0; BNE A 10; LOAD K 2; CMP K 0; BNE A 10; LOAD K 8; \
                SEND - 0; SKIP A 12; LOAD K 9; SEND - 0; STOP - 0";
    assert_eq!(
        sheet(good),
        "SHEET 0 3; IF AND 2 = K1 K0 = K2 K0; START; SEND K8; ELSE; SEND K9; FINISH"
    );
    for (order, other) in [
        // to the SKIP, to where it leads, and one of the two only
        ("BNE A 10; LOAD K 2", "BNE A 9; LOAD K 2"),
        ("BNE A 10; LOAD K 2", "BNE A 12; LOAD K 2"),
        ("BNE A 10; LOAD K 8", "BNE A 9; LOAD K 8"),
        ("BNE A 10; LOAD K 8", "BNE A 12; LOAD K 8"),
        ("SKIP A 12", "SKIP A 11"),
        ("SKIP A 12", "SKIP A 10"),
        ("SKIP A 12", "JMP A 12; JMP A 0"),
    ] {
        let orders = good.replacen(order, other, 1);
        assert_ne!(orders, good);
        assert_eq!(read_back(&orders), None, "{orders}");
    }
}
