//! COND in an object and in a run, whatever stands around it.

/// The reply to a run of one variable from some accumulator and order, with that accumulator, the next
/// order and the variable after it. Spaces stand for tabs.
fn run(orders: &[&str], [acc, next]: [u32; 2], budget: u32) -> ([u32; 2], [u32; 3]) {
    let text = format!("BOX 1 0 {}\n{}\n", orders.len(), orders.join("\n"));
    let mut state = [0; 32];
    state[..4].copy_from_slice(&acc.to_be_bytes());
    state[4..8].copy_from_slice(&next.to_be_bytes());
    state[28..].copy_from_slice(&77_u32.to_be_bytes());
    let object = text.replace(' ', "\t");
    let reply = skimp_reference::run(object.as_bytes(), &mut state, &mut [], budget);
    let word = |place: usize| {
        let bytes = state[place..place + 4].try_into();
        u32::from_be_bytes(bytes.expect("four bytes"))
    };
    ([reply.number, reply.value], [word(0), word(4), word(28)])
}

/// "it does nothing": the accumulator and the words stay, the order behind it is next, and it is a step.
#[test]
fn cond_does_nothing() {
    for count in ["0", "1", "2", "3", "16", "17", "2147483647"] {
        let orders = ["NEG - 0", &format!("COND K {count}"), "NOT - 0", "STOP - 0"];
        for acc in [0, 1, 2, 0x7FFF_FFFF, 0x8000_0000, u32::MAX] {
            assert_eq!(run(&orders, [acc, 1], 0), ([0, 0], [acc, 1, 77]));
            assert_eq!(run(&orders, [acc, 1], 1), ([0, 1], [acc, 2, 77]));
            assert_eq!(run(&orders, [acc, 1], 2), ([0, 2], [!acc, 3, 77]));
            assert_eq!(run(&orders, [acc, 1], 9), ([20, 3], [!acc, 3, 77]));
        }
    }
}

/// COND takes the kind K and any number that a record may have.
#[test]
fn lines() {
    let reply = |line: &str| run(&["NEG - 0", line, "STOP - 0"], [0, 0], 9).0;
    for line in ["COND K 0", "COND K 2", "COND K 17", "COND K 2147483647"] {
        assert_eq!(reply(line), [20, 3], "{line}");
    }
    for line in [
        "COND D 2",
        "COND A 0",
        "COND - 0",
        "COND K 2147483648",
        "COND K 02",
        "COND K -1",
        "COND K",
        "COND 2",
        "CON K 2",
        "CONDS K 2",
        "cond K 2",
    ] {
        assert_eq!(reply(line), [22, 1], "{line}");
    }
}
