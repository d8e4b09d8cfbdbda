//! Conditions at the limits and one past them: comparisons, orders and cells.

use crate::compile::limits::{hold, program};

/// "up to 16 comparisons", all of an IF.
#[test]
fn comparisons() {
    let run = |word: &str, count: usize| vec!["A=1"; count].join(&format!(" %{word} "));
    let with = |condition: &str| program(&format!("%IF {condition} %THEN A=1"));
    for word in ["AND", "OR"] {
        let over = run(word, 17);
        let other = if word == "AND" { "OR" } else { "AND" };
        let halves = |count| format!("({}) %{other} ({})", run(word, 8), run(word, count));
        hold(
            "comparisons",
            &[
                (with(&run(word, 15)), Ok(())),
                (with(&run(word, 16)), Ok(())),
                (with(&over), Err((11, 3))),
                (with(&run(word, 18)), Err((11, 3))),
                (with(&format!("({over})")), Err((11, 3))),
                (with(&halves(8)), Ok(())),
                (with(&halves(9)), Err((11, 3))),
                (
                    program(&format!("%IF {over} %THEN %START\nA=1\n%FINISH")),
                    Err((11, 3)),
                ),
                // each IF has its own
                (
                    with(&run(word, 16)).replace("A=1\n%E", "A=1\n%IF A=1 %THEN A=2\n%E"),
                    Ok(()),
                ),
                // 7, 8 and 9 come before
                (with(&format!("{over} %{other} A=1")), Err((7, 3))),
                (with(&format!("{over} %{word}")), Err((7, 3))),
                (with(&format!("{over} %{word} X=1")), Err((8, 3))),
                (program(&format!("%IF {over} %THEN ->0")), Err((9, 3))),
                (program(&format!("0:%IF {over} %THEN A=1")), Err((9, 3))),
                // found before a label that is never set, and before later statements
                (program(&format!("%IF {over} %THEN ->9")), Err((11, 3))),
                (program(&format!("%IF {over} %THEN A=1\nA=X")), Err((11, 3))),
            ],
        );
    }
}

/// COND is an order too: with two comparisons an IF has seven, and one in its part.
#[test]
fn orders_of_conditions() {
    let after = |sends: usize, rest: &str| {
        let sends = "SEND(1)\n".repeat(sends);
        program(&format!("1:\n{sends}{rest}"))
    };
    let both = "%IF A=1 %OR A=2 %THEN ->1";
    hold(
        "orders of conditions",
        &[
            (after(1019, both), Ok(())),
            (after(1019, &format!("->1\n{both}")), Ok(())),
            (after(1019, &format!("->1\n->1\n{both}")), Err((11, 1025))),
            (after(1020, both), Err((11, 1024))),
            (after(1020, "%IF A=1 %THEN ->1"), Ok(())),
        ],
    );
}

/// Brackets round a comparison and round its operands, as many as the cells hold; and opened only.
#[test]
fn brackets() {
    let around = |depth: usize, inside: &str| {
        let (open, closed) = ("(".repeat(depth), ")".repeat(depth));
        program(&format!(
            "%IF {} %THEN A=1",
            inside.replace('(', &open).replace(')', &closed)
        ))
    };
    let open = |depth: usize| program(&format!("%IF {}", "(".repeat(depth)));
    for inside in ["(A=1)", "(A)=1", "A=(1)"] {
        hold(
            "brackets of conditions",
            &[
                (around(120, inside), Ok(())),
                (around(121, inside), Ok(())),
                (around(122, inside), Err((4, 3))),
                (around(50, inside).replacen('(', "", 1), Err((7, 3))),
                (around(50, inside).replacen(')', "", 1), Err((7, 3))),
            ],
        );
    }
    hold(
        "open brackets of conditions",
        &[(open(253), Err((7, 3))), (open(254), Err((4, 3)))],
    );
}
