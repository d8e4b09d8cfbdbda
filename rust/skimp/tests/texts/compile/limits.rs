//! Sources one below a limit, at it and one above it, with the number and the place that document 01
//! settles; and about half of the variables and of the orders that there may be, where nothing is
//! refused.

use skimp_reference::agree::{Compared, COMPILE};

use crate::compile_call;

/// Acceptance, or a number and a place.
pub type Expected = Result<(), (u32, u32)>;

pub fn hold(what: &str, sources: &[(String, Expected)]) {
    let mut compared = Compared::new(COMPILE, compile_call);
    for (place, (source, expected)) in sources.iter().enumerate() {
        let outcome = compared.check(what, source.as_bytes());
        let outcome = outcome.map_err(|refusal| (refusal.number, refusal.place));
        assert_eq!(outcome, *expected, "{what}, source {place}:\n{source}");
    }
}

pub fn program(statements: &str) -> String {
    format!("%BEGIN\n%INTEGER A\n{statements}\n%ENDOFPROGRAM\n")
}

#[test]
fn bytes_of_the_source() {
    let of_length = |length: usize, filler: &str| {
        let mut source = program("A=1");
        source += &filler.repeat(length - source.len());
        source
    };
    for filler in [" ", "\n", ";", "'", "~"] {
        hold(
            "bytes",
            &[
                (of_length(16_383, filler), Ok(())),
                (of_length(16_384, filler), Ok(())),
                (of_length(16_385, filler), Err((1, 0))),
                (of_length(20_000, filler), Err((1, 0))),
            ],
        );
    }
    // 1 comes before 2, and 2 is met at the last byte
    let mut tab = of_length(16_384, " ");
    tab.replace_range(16_383.., "\t");
    hold("a tab", &[(tab.clone(), Err((2, 16_383)))]);
    hold("a tab", &[(tab + " ", Err((1, 0)))]);
    let mut newlines = "\n".repeat(16_384);
    hold("newlines", &[(newlines.clone(), Err((10, 0)))]);
    newlines.push('\n');
    hold("newlines", &[(newlines, Err((1, 0)))]);
}

/// A statement with its end mark in so many cells.
fn of_cells(cells: usize) -> String {
    let zeros = cells - "A=1".len() - 1;
    program(&format!("A={}1", "0".repeat(zeros)))
}

#[test]
fn cells_of_a_statement() {
    hold(
        "cells",
        &[
            (of_cells(255), Ok(())),
            (of_cells(256), Ok(())),
            (of_cells(257), Err((4, 3))),
        ],
    );
    // "and a newline before it is dropped with its C": both are cells of the moment
    let continued = |cells: usize| {
        let zeros = cells - "A=".len() - 2;
        program(&format!("A={}%C\n1", "0".repeat(zeros)))
    };
    hold(
        "cells before a continuation",
        &[
            (continued(255), Ok(())),
            (continued(256), Ok(())),
            (continued(257), Err((4, 3))),
        ],
    );
    // in one line as many bytes as the source has, most of them no cells
    let spaced = format!("A = %  0{}1", " ".repeat(16_000));
    hold("spaces", &[(program(&spaced), Ok(()))]);
}

#[test]
fn variables() {
    let declared = |count: usize, in_list: usize| {
        let names: Vec<String> = (0..count).map(|number| format!("V{number}")).collect();
        let lists = names.chunks(in_list);
        let lists = lists.map(|list| format!("%INTEGER {}\n", list.join(",")));
        format!("%BEGIN\n{}%ENDOFPROGRAM", lists.collect::<String>())
    };
    for (in_list, place) in [(1, 130), (16, 10), (32, 6), (13, 11)] {
        hold(
            "variables",
            &[
                (declared(63, in_list), Ok(())),
                (declared(64, in_list), Ok(())),
                (declared(65, in_list), Ok(())),
                (declared(127, in_list), Ok(())),
                (declared(128, in_list), Ok(())),
                (declared(129, in_list), Err((11, place))),
            ],
        );
    }
}

#[test]
fn set_labels() {
    let labelled = |count: usize, in_line: usize| {
        let labels: Vec<String> = (1..=count).map(|label| format!("{label}:")).collect();
        let lines = labels.chunks(in_line).map(|line| line.concat() + "\n");
        program(&lines.collect::<String>())
    };
    for (in_line, place) in [(1, 67), (16, 7), (64, 4), (32, 5)] {
        hold(
            "labels",
            &[
                (labelled(63, in_line), Ok(())),
                (labelled(64, in_line), Ok(())),
                (labelled(65, in_line), Err((11, place))),
            ],
        );
    }
    let label = |number: &str| program(&format!("{number}: A=1\n->{number}"));
    let jump = |number: &str| program(&format!("1: A=1\n->{number}"));
    hold(
        "numbers of labels",
        &[
            (label("0"), Err((9, 3))),
            (label("1"), Ok(())),
            (label("01"), Ok(())),
            (label("9998"), Ok(())),
            (label("9999"), Ok(())),
            (label("10000"), Err((9, 3))),
            (label("2147483647"), Err((9, 3))),
            (label("2147483648"), Err((6, 3))),
            (jump("0"), Err((9, 4))),
            (jump("1"), Ok(())),
            (jump("9999"), Err((9, 4))),
            (jump("10000"), Err((9, 4))),
        ],
    );
}

#[test]
fn temporaries() {
    // each pair of brackets takes one more, the first of them two
    let nested = |temporaries: usize| {
        let depth = temporaries - 1;
        format!("{}A-1{}", "A-(".repeat(depth), ")".repeat(depth))
    };
    let forms = [
        "A=$",
        "SEND($)",
        "%IF $ = 1 %THEN A = 1",
        "%IF 1 = 1 %THEN A = $",
        "%IF 1 = 1 %THEN A = 1 %ELSE SEND($)",
    ];
    for form in forms {
        let with = |temporaries| program(&form.replace('$', &nested(temporaries)));
        hold(
            "temporaries",
            &[
                (with(2), Ok(())),
                (with(31), Ok(())),
                (with(32), Ok(())),
                (with(33), Err((11, 3))),
            ],
        );
    }
    // the right side of a comparison is one deeper
    let right = |temporaries| program(&format!("%IF 1 = {} %THEN A=1", nested(temporaries)));
    hold(
        "temporaries of a right side",
        &[(right(31), Ok(())), (right(32), Err((11, 3)))],
    );
}

#[test]
fn brackets() {
    let nested = |depth: usize| {
        let (open, closed) = ("(".repeat(depth), ")".repeat(depth));
        program(&format!("A={open}1{closed}"))
    };
    let open = |depth: usize| program(&format!("A={}", "(".repeat(depth)));
    hold(
        "brackets",
        &[
            (nested(125), Ok(())),
            (nested(126), Ok(())),
            (nested(127), Err((4, 3))),
            (open(253), Err((7, 3))),
            (open(254), Err((4, 3))),
            (nested(50).replacen('(', "", 1), Err((7, 3))),
            (nested(50).replacen(')', "", 1), Err((7, 3))),
        ],
    );
}

#[test]
fn orders() {
    // `SEND(1)` has two orders and `->1` one
    let jumps = |count: usize| {
        let source = "->1\n".repeat(count);
        format!("%BEGIN\n1:\n{source}%ENDOFPROGRAM")
    };
    let sends = |count: usize, jump: &str| {
        let sends = "SEND(1)\n".repeat(count);
        format!("%BEGIN\n1:\n{sends}{jump}%ENDOFPROGRAM")
    };
    hold(
        "orders",
        &[
            (jumps(1022), Ok(())),
            (jumps(1023), Ok(())),
            (jumps(1024), Ok(())),
            (jumps(2046), Ok(())),
            (jumps(2047), Ok(())),
            (jumps(2048), Err((11, 2050))),
            (jumps(2400), Err((11, 2050))),
            (sends(511, ""), Ok(())),
            (sends(511, "->1\n"), Ok(())),
            (sends(512, ""), Ok(())),
            (sends(1023, ""), Ok(())),
            (sends(1023, "->1\n"), Ok(())),
            (sends(1023, "->1\n->1\n"), Err((11, 1027))),
            (sends(1024, ""), Err((11, 1026))),
            // 8 and 9 come before
            (sends(1023, "SEND(A)\n"), Err((8, 1026))),
            (sends(1023, "0:SEND(1)\n"), Err((9, 1026))),
            (sends(1023, "->1\n->0\n"), Err((9, 1027))),
        ],
    );
}

/// Orders are counted at the statement that brings them: the SKIP at `%FINISH %ELSE %START`.
#[test]
fn orders_of_groups() {
    let after = |sends: usize, rest: &str| {
        let sends = "SEND(1)\n".repeat(sends);
        program(&format!("1:\n{sends}{rest}"))
    };
    let both = "%IF 1=1 %THEN %START\n->1\n%FINISH %ELSE %START\n->1\n%FINISH";
    hold(
        "orders of groups",
        &[
            (after(508, both), Ok(())),
            (after(509, both), Ok(())),
            (after(510, both), Ok(())),
            (after(511, both), Ok(())),
            (after(1020, both), Ok(())),
            (after(1020, &format!("->1\n{both}")), Ok(())),
            // the second part, the SKIP, the first part, the condition
            (after(1021, both), Err((11, 1028))),
            (after(1021, &format!("->1\n{both}")), Err((11, 1028))),
            (after(1022, both), Err((11, 1027))),
            (after(1022, &format!("->1\n{both}")), Err((11, 1027))),
        ],
    );
}

/// "nested up to 16 deep"; "A lone u counts as a level; deeper is 11."
#[test]
fn levels() {
    let nested = |levels: usize, inside: &str| {
        let open = "%IF A=1 %THEN %START\n".repeat(levels);
        program(&format!("{open}{inside}{}", "\n%FINISH".repeat(levels)))
    };
    let second = "A=2\n%FINISH %ELSE %START\n";
    hold(
        "levels",
        &[
            (nested(15, "A=2"), Ok(())),
            (nested(16, "A=2"), Ok(())),
            (nested(17, "A=2"), Err((11, 19))),
            (nested(15, "%IF A=1 %THEN A=2"), Ok(())),
            (nested(16, "%IF A=1 %THEN A=2"), Err((11, 19))),
            (nested(16, "%IF A=1 %THEN A=2 %ELSE A=3"), Err((11, 19))),
            (nested(16, &format!("{second}A=3")), Ok(())),
            (
                nested(16, &format!("{second}%IF A=1 %THEN A=2")),
                Err((11, 21)),
            ),
            // 8 and 9 come before
            (nested(16, "%IF X=1 %THEN A=2"), Err((8, 19))),
            (nested(16, "0:%IF A=1 %THEN A=2"), Err((9, 19))),
        ],
    );
}

#[test]
fn constants() {
    let constant = |number: &str| program(&format!("A={number}"));
    hold(
        "constants",
        &[
            (constant("0"), Ok(())),
            (constant("2147483639"), Ok(())),
            (constant("2147483646"), Ok(())),
            (constant("2147483647"), Ok(())),
            (constant("00000000000002147483647"), Ok(())),
            (constant("2147483648"), Err((6, 3))),
            (constant("4294967296"), Err((6, 3))),
            (constant("18446744073709551616"), Err((6, 3))),
            (constant("99999999999999999999999"), Err((6, 3))),
            (constant("''"), Err((6, 3))),
            (constant("'A'"), Ok(())),
            (constant("'ABCD'"), Ok(())),
            (constant("'ABCDE'"), Err((6, 3))),
            (constant("''''"), Ok(())),
            (constant("''''''''''"), Ok(())),
            (constant("''''''''''''"), Err((6, 3))),
        ],
    );
}

#[test]
fn no_end() {
    for count in [0, 1, 2, 300] {
        let source = String::from("%BEGIN\n") + &"! note\n\nSEND(1);".repeat(count);
        hold("no end", &[(source, Err((10, 1 + count as u32)))]);
    }
}
