//! The limits: cells of a statement, variables, labels, temporaries and orders.

use crate::{check, read_line};

fn begin(rest: &str) -> String {
    format!("%BEGIN\n{rest}")
}

/// An assignment to a name of so many letters less one. It has two cells more than letters.
fn cells(count: usize) -> String {
    format!("{}=1", "N".repeat(count - 2))
}

/// "A statement may hold 256 cells at any moment, its end mark included, and a newline before it is
/// dropped with its C."
#[test]
fn most_cells() {
    let [below, at, over] = [254, 255, 256].map(cells);
    for end in ["\n", ";", " % \n", ""] {
        check(&[
            (&begin(&format!("{below}{end}")), "8 at 2"),
            (&begin(&format!("{at}{end}")), "8 at 2"),
            (&begin(&format!("{over}{end}")), "4 at 2"),
            (&begin(&format!("{over}1{end}")), "4 at 2"),
        ]);
    }
    check(&[
        // the C is a cell, and so is the newline that is dropped with it
        (&begin(&format!("{below}%C\n")), "8 at 2"),
        (&begin(&format!("{at}%C\n")), "4 at 2"),
        (&begin(&format!("{over}%C\n")), "4 at 2"),
        (&begin(&format!("{below}%C\n1\n")), "8 at 2"),
        (&begin(&format!("{below}%C\n11\n")), "4 at 2"),
        (&begin(&format!("{below}%C\n%C\n")), "8 at 2"),
        // `;` is not dropped, but is an end mark
        (&begin(&format!("{at}%C;")), "4 at 2"),
        (&begin(&format!("{below}%C;")), "5 at 2"),
        // spaces and `%` are no cells
        (
            &begin(&format!("{}{at}{}", "% ".repeat(300), "% ".repeat(300))),
            "8 at 2",
        ),
        // the cells of quotes, a newline and a `;` among them
        (&begin(&format!("'{}'\n", ";\n".repeat(126))), "6 at 2"),
        (&begin(&format!("'{}''\n", ";\n".repeat(126))), "3 at 2"),
        (&begin(&format!("'{};'\n", ";\n".repeat(126))), "6 at 2"),
        (&begin(&format!("'{};'\n", ";\n".repeat(127))), "4 at 2"),
        (&begin(&format!("'{};''\n", ";\n".repeat(126))), "4 at 2"),
        // the cells before an unknown keyword or a wrong form
        (&begin(&format!("%{}\n", "X".repeat(255))), "5 at 2"),
        (&begin(&format!("%{}\n", "X".repeat(256))), "4 at 2"),
        (&begin(&format!("%{}\n", "C".repeat(255))), "3 at 2"),
        (&begin(&format!("%{};\n", "C".repeat(255))), "5 at 2"),
        (&begin(&format!("%{}\n", "C".repeat(256))), "4 at 2"),
        // a comment and skipped statements have no cells
        (&begin(&format!("!{at}{at}\n;;{at}")), "8 at 2"),
    ]);
}

/// "3 or 4, whichever is met first, 3 if the source's end meets both"
#[test]
fn cells_at_the_end() {
    let [at, over] = [255, 256].map(|count| "'".to_string() + &" ".repeat(count - 1));
    check(&[
        (&begin(&at), "3 at 2"),
        (&begin(&over), "3 at 2"),
        (&begin(&format!("{over} ")), "4 at 2"),
        (&begin(&format!("{over}\n")), "4 at 2"),
        (&begin(&format!("{at}\n")), "3 at 2"),
        (&begin(&format!("{at}'")), "4 at 2"),
        (&begin(&format!("{}%C", cells(254))), "3 at 2"),
        (&begin(&format!("{}%C", cells(255))), "3 at 2"),
        (&begin(&format!("{}%C", cells(256))), "4 at 2"),
        (&begin(&format!("{}%C\n", cells(255))), "4 at 2"),
        (&begin(&cells(255)), "8 at 2"),
        (&begin(&cells(256)), "4 at 2"),
    ]);
}

/// A name of one letter for each of the first 26 numbers, and of two letters for those behind them.
fn name(number: usize) -> String {
    let letter = |number: usize| char::from(b'A' + number as u8);
    match number.checked_sub(26) {
        None => letter(number).to_string(),
        Some(rest) => format!("{}{}", letter(rest / 26), letter(rest % 26)),
    }
}

/// A list of so many names from a number on.
fn names(first: usize, count: usize) -> String {
    let names = (first..first + count).map(name);
    names.collect::<Vec<_>>().join(",")
}

/// So many variables, and the rest of a program. The last list has nearly as many as one statement
/// takes.
fn declared(count: usize, rest: &str) -> String {
    let in_last = count.min(89);
    // those of one letter are in the last list
    let mut lists: Vec<String> = (in_last..count)
        .map(|number| format!("%INTEGER {}", name(number)))
        .collect();
    lists.push(format!("%INTEGER {}{rest}", names(0, in_last)));
    begin(&format!("{};%ENDOFPROGRAM", lists.join(";")))
}

/// A limit that is raised moves the refusal: nothing happens at half of it.
#[test]
fn most_variables() {
    check(&[
        (&declared(63, ""), "SHEET 63 0"),
        (&declared(64, ""), "SHEET 64 0"),
        (&declared(65, ""), "SHEET 65 0"),
        (&declared(65, ",A"), "8 at 2"),
        (&declared(127, ""), "SHEET 127 0"),
        (&declared(128, ""), "SHEET 128 0"),
        (&declared(128, ";CK=Z"), "SHEET 128 1; SET 129 W66"),
        // 39 lists of one name stand before
        (&declared(128, ",A"), "8 at 41"),
        (&declared(128, ",SEND"), "8 at 41"),
        (&declared(129, ""), "11 at 42"),
        (&declared(129, ",A"), "8 at 42"),
        (&declared(129, ",CN"), "8 at 42"),
        (&declared(129, ",SEND"), "8 at 42"),
        (&declared(129, ","), "7 at 42"),
        (&declared(129, ";A=1+"), "11 at 42"),
    ]);
    // each in a list of its own
    let single = |count: usize, rest: &str| {
        let lists = (0..count).map(|number| format!("%INTEGER {};", name(number)));
        begin(&(lists.collect::<String>() + rest + ";%ENDOFPROGRAM"))
    };
    check(&[
        (&single(64, "%INTEGER X1"), "SHEET 65 0"),
        (&single(127, "%INTEGER X1"), "SHEET 128 0"),
        (&single(127, "%INTEGER X1,X2"), "11 at 129"),
        (&single(127, "%INTEGER X1,X2,X1"), "8 at 129"),
        (&single(127, "%INTEGER X1,X2,A"), "8 at 129"),
        (&single(127, "%INTEGER X1,X2;%INTEGER X3,A"), "11 at 129"),
        (&single(128, "%INTEGER A"), "8 at 130"),
        (&single(128, "%INTEGER X1"), "11 at 130"),
        (&single(128, "%INTEGER X1=1"), "7 at 130"),
        (&single(128, "X1=1"), "8 at 130"),
        // the last of them is word 129
        (&single(128, "DX=A"), "SHEET 128 1; SET 129 W2"),
        (&single(128, "A=DX-DW"), "SHEET 128 1; SET 2 - W129 W128"),
    ]);
}

/// One statement may name many more than there may be: what is refused before 11 is found behind the
/// 128th and behind the 200th too.
#[test]
fn far_over_the_variables() {
    let last = |count: usize| begin_with(128, &names(200, count));
    check(&[
        (&last(1), "11 at 130"),
        (&last(83), "11 at 130"),
        (&(last(80) + ",A"), "8 at 130"),
        (&(last(80) + ",SEND"), "8 at 130"),
        (&(last(80) + ","), "7 at 130"),
        (&(last(83) + ",A"), "4 at 130"),
        // the first and the last of those before, and of the same statement
        (&(last(1) + ",DX"), "8 at 130"),
        (&(last(73) + ",DX"), "8 at 130"),
        (&(last(73) + "," + &name(200)), "8 at 130"),
        (&(last(73) + "," + &name(272)), "8 at 130"),
        (&(last(73) + "," + &name(273)), "11 at 130"),
        (&begin_with(128, &vec!["X1"; 2].join(",")), "8 at 130"),
        (&begin_with(128, &vec!["A"; 124].join(",")), "8 at 130"),
        (&begin_with(0, &vec!["A"; 124].join(",")), "8 at 2"),
        // as many different ones as a statement takes
        (&begin_with(0, &names(0, 91)), "10 at 2"),
        (&begin_with(37, &names(37, 91)), "4 at 39"),
    ]);
}

/// So many variables, each in a list of its own, and one list more. There is no end.
fn begin_with(count: usize, list: &str) -> String {
    let lists = (0..count).map(|number| format!("%INTEGER {};", name(number)));
    begin(&(lists.collect::<String>() + "%INTEGER " + list))
}

#[test]
fn most_labels() {
    let labels = |first: usize, count: usize| {
        let labels = (first..first + count).map(|label| format!("{label}:"));
        labels.collect::<String>()
    };
    let program = |text: &str| begin(&format!("{text};%ENDOFPROGRAM"));
    check(&[
        (&program(&labels(1, 63)), "SHEET 0 0"),
        (&program(&labels(1, 64)), "SHEET 0 0"),
        (&program(&labels(1, 65)), "11 at 2"),
        (&program(&(labels(1, 65) + "1:")), "9 at 2"),
        (&program(&(labels(1, 65) + "65:")), "9 at 2"),
        (&program(&(labels(1, 65) + "0:")), "9 at 2"),
        (&program(&(labels(1, 65) + "->0")), "9 at 2"),
        (&program(&(labels(1, 65) + "A=1")), "8 at 2"),
        (&program(&(labels(1, 65) + "->5")), "11 at 2"),
        (
            &program(&format!("{};{};99:", labels(1, 32), labels(33, 32))),
            "11 at 4",
        ),
        (
            &program(&format!("{};{};9:", labels(1, 32), labels(33, 32))),
            "9 at 4",
        ),
        (
            &program(&format!("{};{};->9", labels(1, 32), labels(33, 32))),
            "SHEET 0 1; GOTO 1",
        ),
        // labels that are only jumped to do not count
        (&program(&format!("{};->9;->70", labels(1, 64))), "9 at 4"),
        (&program(&format!("->70;{}", labels(1, 64))), "9 at 2"),
        (&program(&format!("->70;{}", labels(1, 65))), "11 at 3"),
    ]);
}

/// An expression that uses so many temporaries, at least two: each `-(` opens a right operand that
/// is not plain.
fn temporaries(count: usize) -> String {
    let depth = count - 1;
    format!("{}1-1{}", "1-(".repeat(depth), ")".repeat(depth))
}

#[test]
fn most_temporaries() {
    let program = |text: &str| begin(&format!("%INTEGER A\n{text}\n%ENDOFPROGRAM"));
    let refused = |text: &str| read_line(program(text).as_bytes());
    let accepted = |text: &str| {
        let line = refused(text);
        assert!(line.starts_with("SHEET 1 "), "{line}: {text}");
    };
    let [at, over] = [32, 33].map(temporaries);
    for form in [
        "A=$",
        "SEND($)",
        "%IF $=1 %THEN A=1",
        "%IF 1=1 %THEN A=$",
        "%IF 1=1 %THEN A=1 %ELSE SEND($)",
    ] {
        accepted(&form.replace('$', &temporaries(31)));
        accepted(&form.replace('$', &at));
        let over = form.replace('$', &over);
        assert_eq!(refused(&over), "11 at 3");
        assert_eq!(refused(&format!("0: {over}")), "9 at 3");
        assert_eq!(refused(&over.replacen("1-1", "1-X", 1)), "8 at 3");
        assert_eq!(refused(&format!("{over};A=X")), "11 at 3");
        assert_eq!(refused(&format!("A=1;{over};->9")), "11 at 4");
        assert_eq!(refused(&format!("->9;{over}")), "11 at 4");
    }
    // a right operand of a comparison has one temporary in use
    accepted(&format!("%IF 1={} %THEN A=1", temporaries(31)));
    assert_eq!(refused(&format!("%IF 1={at} %THEN A=1")), "11 at 3");
    assert_eq!(refused(&format!("A=1-({at})")), "11 at 3");
    // the left operand has none
    accepted(&format!("A=({at})-1"));
    // with many orders, too
    let many = over.replace("(1-1)", &format!("(1{})", "-1".repeat(50)));
    assert_eq!(refused(&format!("A={many}")), "11 at 3");
    // T is the most of any statement, not the sum
    accepted(&format!("A={at}\nA={at}"));
}

/// The first line of what a program is read to that has so many SENDs of two orders each, and other
/// statements behind them.
fn with_sends(count: usize, rest: &str) -> String {
    let sends = "SEND(1)\n".repeat(count);
    let source = begin(&format!("%INTEGER A\n{sends}{rest}\n%ENDOFPROGRAM"));
    let line = read_line(source.as_bytes());
    let start = line.split("; ").next().expect("never empty");
    start.to_string()
}

/// "Orders are over at the first statement where those so far and STOP pass" 2,048.
#[test]
fn most_orders() {
    // 1,023 to 1,025
    assert_eq!(with_sends(511, ""), "SHEET 1 511");
    assert_eq!(with_sends(511, "1:->1"), "SHEET 1 512");
    assert_eq!(with_sends(512, ""), "SHEET 1 512");
    // 2,047 to 2,049
    assert_eq!(with_sends(1023, ""), "SHEET 1 1023");
    assert_eq!(with_sends(1023, "1:->1"), "SHEET 1 1024");
    assert_eq!(with_sends(1023, "1:->1;2:"), "SHEET 1 1024");
    assert_eq!(with_sends(1023, "1:->1;2:->2"), "11 at 1027");
    assert_eq!(with_sends(1024, ""), "11 at 1026");
    assert_eq!(with_sends(1023, "A=1"), "11 at 1026");
    assert_eq!(with_sends(1022, "A=1-1"), "SHEET 1 1023");
    assert_eq!(with_sends(1022, "A=1-1-1"), "11 at 1025");
    assert_eq!(with_sends(1022, "%IF 1=1 %THEN ->1;1:"), "11 at 1025");
    assert_eq!(with_sends(1021, "%IF 1=1 %THEN ->1;1:"), "SHEET 1 1023");
    let both = "%IF 1=1 %THEN ->1 %ELSE ->1;1:";
    assert_eq!(with_sends(1021, both), "11 at 1024");
    assert_eq!(with_sends(1020, both), "SHEET 1 1023");
    // other refusals of the statement that passes the limit, and of others
    assert_eq!(with_sends(1023, "A=X"), "8 at 1026");
    assert_eq!(with_sends(1023, "0:A=1"), "9 at 1026");
    assert_eq!(with_sends(1023, "A=%X"), "5 at 1026");
    assert_eq!(with_sends(1023, "A=1;A=X"), "11 at 1026");
    assert_eq!(with_sends(1023, "->9;A=1"), "11 at 1027");
    assert_eq!(with_sends(1023, "->9"), "9 at 1026");
    assert_eq!(with_sends(1022, "->9;->8"), "9 at 1025");
    assert_eq!(with_sends(1200, "'"), "11 at 1026");
}

/// As many statements and instructions as there may be.
#[test]
fn most_statements() {
    let declarations: String = (1..=128)
        .map(|number| format!("%INTEGER V{number}\n"))
        .collect();
    let labels: String = (1..=64).map(|label| format!("{label}:\n")).collect();
    let jumps = |count| "->64\n".repeat(count);
    let program = |count, rest: &str| {
        let source = begin(&format!("{declarations}{}{labels}{rest}", jumps(count)));
        read_line(source.as_bytes())
    };
    // the labels stand behind the last instruction
    for count in [1022, 1023, 1024, 2046, 2047] {
        let jumps = format!("; GOTO {}", count + 1).repeat(count);
        let expected = format!("SHEET 128 {count}{jumps}");
        assert_eq!(program(count, "%ENDOFPROGRAM"), expected);
    }
    assert_eq!(program(2048, "%ENDOFPROGRAM"), "11 at 2177");
    assert_eq!(program(2047, ""), "10 at 2240");
    assert_eq!(program(2047, "->1"), "11 at 2241");
    assert_eq!(program(2047, "->0"), "9 at 2241");
    assert_eq!(program(2047, "A=1"), "8 at 2241");
    assert_eq!(program(2047, "%INTEGER A"), "7 at 2241");
    assert_eq!(program(2047, "''"), "6 at 2241");
    assert_eq!(program(2047, "%X"), "5 at 2241");
    assert_eq!(program(2047, "'"), "3 at 2241");
    assert_eq!(program(2046, "->65;%ENDOFPROGRAM"), "9 at 2240");
}

/// A label before any instruction of a long program, and behind its last.
#[test]
fn far_labels() {
    for count in [1023, 1024, 2047] {
        for number in [1, count / 2, 1023, 1024, count, count + 1] {
            let (before, behind) = (number - 1, count + 1 - number);
            let jumps = |count| "->7\n".repeat(count);
            let source = format!("{}7:\n{}%ENDOFPROGRAM", jumps(before), jumps(behind));
            let expected = format!("SHEET 0 {count}") + &format!("; GOTO {number}").repeat(count);
            assert_eq!(read_line(begin(&source).as_bytes()), expected);
        }
    }
}

/// Labels behind the first parts of groups that end a program of 2,047 orders and STOP lead to the
/// end, over all second parts.
#[test]
fn labels_behind_far_groups() {
    for levels in [1, 2, 16] {
        // three orders of each condition, a SKIP and a jump in each second part, the innermost jump
        let before = 2047 - 5 * levels - 1;
        let open = "%IF 1=1 %THEN %START\n".repeat(levels);
        let close = |level| format!("{level}:\n%FINISH %ELSE %START\n->1\n%FINISH\n");
        let closed: String = (1..=levels).map(close).collect();
        let jumps = "->1\n".repeat(before);
        let source = format!("{jumps}{open}->{levels}\n{closed}%ENDOFPROGRAM");
        let count = before + 2 * levels + 1;
        let goto = format!("GOTO {}", count + 1);
        let expected = [
            format!("SHEET 0 {count}"),
            vec![goto.clone(); before].join("; "),
            vec!["IF = K1 K1; START"; levels].join("; "),
            goto.clone(),
            vec![format!("ELSE; {goto}; FINISH"); levels].join("; "),
        ];
        assert_eq!(read_line(begin(&source).as_bytes()), expected.join("; "));
        let longer = source.replacen("->1", "->1\n->1", 1);
        let over = read_line(begin(&longer).as_bytes());
        // the last second part's jump: behind each group's end stand two statements and its own
        let place = 1 + before + 1 + levels + 1 + 4 * (levels - 1) + 3;
        assert_eq!(over, format!("11 at {place}"));
    }
}
