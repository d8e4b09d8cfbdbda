//! Sources at a limit, one below it or a little above it, with other refusals next to it.

mod comparisons;

use super::spelled_sheet;
use crate::limits::{GREATEST_LABEL, MOST_CELLS, MOST_LABELS, MOST_LEVELS};
use crate::limits::{MOST_ORDERS, MOST_SOURCE, MOST_TEMPORARIES, MOST_VARIABLES};
use crate::random::Random;

type Maker = fn(&mut Random) -> Vec<u8>;

/// A source of any of the kinds below. Those of many bytes come less often.
pub fn source(random: &mut Random) -> Vec<u8> {
    const MAKERS: [Maker; 9] = [
        cells,
        cells_at_the_end,
        variables,
        labels,
        temporaries,
        orders,
        levels,
        comparisons::source,
        open_groups,
    ];
    match random.below(40) {
        0 => length(random),
        1 => many(random),
        2..=4 => never_set(random),
        _ => random.pick(&MAKERS)(random),
    }
}

/// One below, at, one above or two above.
fn around(random: &mut Random, limit: usize) -> usize {
    random.between(limit - 1, limit + 2)
}

/// A source of about the most bytes, maybe with one that is not allowed.
fn length(random: &mut Random) -> Vec<u8> {
    let mut source = spelled_sheet(random).1;
    source.push(b'\n');
    let filler = random.pick(b" ;\n!%A");
    source.resize(around(random, MOST_SOURCE), filler);
    if random.once_in(3) {
        // anywhere, and at the last places
        let last = source.len() - 1;
        let place = match random.below(2) {
            0 => random.below(source.len()),
            _ => random.between(last - 2, last),
        };
        source[place] = random.pick(&[0, 9, 127, 255]);
    }
    source
}

/// What may end a statement, with and without a newline dropped with its C.
const ENDS: [&str; 9] = [
    "\n",
    ";",
    "",
    "%C\n",
    "%C\n\n",
    "%C;",
    "%C",
    "%CC\n",
    "%C\n%C\n;",
];

/// A statement of about the most cells in the middle of a program.
fn cells(random: &mut Random) -> Vec<u8> {
    let count = random.between(MOST_CELLS - 3, MOST_CELLS + 1);
    let end = random.pick(&ENDS);
    let statement = long_statement(random, count);
    let before = random.pick(&["%BEGIN\n%INTEGER A\n", "%BEGIN;%INTEGER A;A=1;! note\n", ""]);
    let after = random.pick(&["\n%ENDOFPROGRAM\n", "A=1;%ENDOFPROGRAM", "", "'", "A\n\n"]);
    [before, &statement, end, after].concat().into_bytes()
}

/// A statement of so many cells.
fn long_statement(random: &mut Random, count: usize) -> String {
    match random.below(8) {
        0 => filled("A=", "-1", count),
        1 => filled("A=-1", "1", count),
        2 => filled("A=", "0", count),
        3 => filled("A='", " ", count - 1) + "'",
        4 => filled("A='", ";\n", count),
        5 => filled("%", random.pick(&["C", "IF", "X"]), count + 1),
        6 => {
            // a C of its own on the way, which makes room again
            let half = filled("A=", "0", count / 2);
            let gap = random.pick(&["%C\n", " %c \n", "%C%C\n\n"]);
            half + gap + &"0".repeat(count - count / 2)
        }
        _ => filled("SEND(", " 1 -(", count),
    }
}

/// A text that goes on with pieces until it has so many bytes that are no spaces.
fn filled(start: &str, piece: &str, count: usize) -> String {
    let mut text = start.to_string();
    let mut held = start.len();
    for byte in piece.bytes().cycle() {
        if held >= count {
            break;
        }
        // in quotes a space is a cell, too
        held += usize::from(byte != b' ' || piece == " ");
        text.push(char::from(byte));
    }
    text
}

/// A source that ends in a statement of about the most cells, in quotes or with a C.
fn cells_at_the_end(random: &mut Random) -> Vec<u8> {
    let count = random.between(MOST_CELLS - 2, MOST_CELLS + 2);
    let before = random.pick(&["%BEGIN\n", "", "%BEGIN\n! note\nSEND(1);"]);
    let statement = match random.below(4) {
        0 => filled("'", " ", count),
        1 => filled("A='", ";\n", count),
        2 => filled("A=", "1", count - 1) + "%C",
        _ => filled("A=", "+1", count),
    };
    let end = random.pick(&["", "", "\n", ";", "'", "''"]);
    [before, &statement, end].concat().into_bytes()
}

/// A name of one letter for each of the first 26 numbers, and of two letters for those behind them.
/// As many as 91 fit into one statement.
fn short_name(number: usize) -> String {
    let letter = |number: usize| char::from(b'A' + number as u8);
    match number.checked_sub(26) {
        None => letter(number).to_string(),
        Some(rest) => format!("{}{}", letter(rest / 26), letter(rest % 26)),
    }
}

/// About the most variables, half of them or many more, in one list or several, maybe with a name
/// that is refused.
fn variables(random: &mut Random) -> Vec<u8> {
    let most = MOST_VARIABLES as usize;
    let count = match random.below(6) {
        0 => around(random, most / 2),
        1 => random.between(most, most + 91),
        _ => around(random, most),
    };
    let mut names: Vec<String> = (0..count).map(short_name).collect();
    match random.below(6) {
        0 => names.push("SEND".to_string()),
        1 => names.push(names[random.below(count)].clone()),
        2 => {
            let name = names[random.below(count)].clone();
            names.insert(random.below(count), name);
        }
        3 => names.push(String::new()),
        _ => {}
    }
    let longest = random.pick(&[1, 16, 32, 64, 83, 91]);
    let mut source = String::from("%BEGIN\n");
    for list in names.chunks(longest) {
        source += &format!("%INTEGER {}\n", list.join(","));
    }
    let used = match random.below(5) {
        0 => "->1".to_string(),
        1 => "%INTEGER A".to_string(),
        // the last that is declared, and the one behind it
        2 => format!("{}={}", short_name(count - 1), short_name(0)),
        3 => format!("{}=1", short_name(count)),
        _ => format!("{}={}", short_name(most - 1), short_name(most / 2)),
    };
    (source + &used + "\n%ENDOFPROGRAM\n").into_bytes()
}

/// What may stand behind the last labels.
const LAST: [&str; 12] = [
    "->40",
    "->0",
    "->10000",
    "SEND(1)",
    "SEND(A)",
    "SEND('')",
    "%IF 1=1 %THEN ->0",
    "%IF 1=A %THEN ->0",
    "",
    ":",
    "\n0:",
    ";->77",
];

/// About the most set labels in one statement or several, maybe with one that is refused.
fn labels(random: &mut Random) -> Vec<u8> {
    let count = around(random, MOST_LABELS) as u32;
    let first = random.pick(&[1, 36, 900]);
    let mut labels: Vec<u32> = (first..first + count).collect();
    match random.below(6) {
        0 => labels.push(random.pick(&labels)),
        1 => {
            let place = random.below(labels.len());
            labels.insert(place, random.pick(&labels));
        }
        2 => labels.push(random.pick(&[0, GREATEST_LABEL + 1])),
        _ => {}
    }
    let longest = random.pick(&[1, 8, MOST_LABELS - 2, MOST_LABELS, MOST_LABELS + 6]);
    let mut source = String::new();
    for part in labels.chunks(longest) {
        let before = match source.is_empty() {
            true => "%BEGIN\n",
            false => random.pick(&["\n", ";", "->37\n", "->1\n", "SEND(1)\n"]),
        };
        source += before;
        let label = |label: &u32| format!("{label}:");
        source += &part.iter().map(label).collect::<String>();
    }
    // in the last label's statement, or behind it
    source += random.pick(&LAST);
    (source + "\n%ENDOFPROGRAM\n").into_bytes()
}

/// An expression that uses so many temporaries, at least two.
fn nested(random: &mut Random, temporaries: usize) -> String {
    let operators = ["-", "+", "*", "/", "**", "<<", ">>", "&", "!", "!!"];
    let depth = temporaries - 1;
    let mut expression = String::new();
    for _ in 0..depth {
        expression += random.pick(&["1", "A"]);
        expression += random.pick(&operators);
        expression.push('(');
    }
    expression += random.pick(&["A-1", "-A", "\\1", "1!A"]);
    // more orders, up to about as many as a statement has cells for
    expression += &"-1".repeat(random.pick(&[0, 0, 10, 40, 50]));
    expression + &")".repeat(depth)
}

/// Instructions of about the most temporaries.
fn temporaries(random: &mut Random) -> Vec<u8> {
    let count = around(random, MOST_TEMPORARIES as usize);
    let value = nested(random, count);
    let forms = [
        "A=$",
        "SEND($)",
        "A=($)-1",
        "A=1-($)",
        "%IF $=1 %THEN A=1",
        "%IF 1=$ %THEN A=1",
        "%IF 1=($)-1 %THEN A=1",
        "%IF 1=1 %THEN A=$",
        "%IF 1=1 %THEN ->1 %ELSE SEND($)",
        "0:A=$",
        "1:1:A=$",
        "B=$",
        "A=B-($)",
        "%IF $=1 %THEN ->0",
        "%IF $=B %THEN ->0",
        "%IF 1=1 %THEN ->10000 %ELSE SEND($)",
    ];
    let statement = random.pick(&forms).replace('$', &value);
    let before = random.pick(&["", "A=1;", "1:;", "->9;", "->1;1:"]);
    let after = random.pick(&["", "A=2", "->0", "B=1", "1:->9", "%X"]);
    format!("%BEGIN\n%INTEGER A\n{before}{statement}\n{after}\n%ENDOFPROGRAM").into_bytes()
}

/// Instructions of about the most orders, or half of them.
fn orders(random: &mut Random) -> Vec<u8> {
    let limit = random.pick(&[MOST_ORDERS, MOST_ORDERS, MOST_ORDERS / 2]);
    // without STOP
    let count = random.between(limit - 3, limit + 1);
    let mut source = String::from("%BEGIN\n%INTEGER A\n1:\n");
    let mut left = count;
    while left > 0 {
        let size = match random.below(8) {
            0 => random.between(1, 4),
            _ => random.between(60, 120),
        };
        let size = size.min(left);
        left -= size;
        let mut instruction = instruction(random, size);
        // maybe another refusal where the orders pass the limit
        if left == 0 {
            source += random.pick(&["", "", "", "0:", "1:", "2:", "2:2:"]);
            match random.below(6) {
                0 => instruction = instruction.replacen("1-1", "X-1", 1),
                1 => instruction = instruction.replacen("->1", "->0", 1),
                _ => {}
            }
        }
        source += &instruction;
        source.push(random.pick(&['\n', ';']));
    }
    source += random.pick(&[
        "", "", "", "A=X", "0:", "->9", "1:", "2:", "->1", "A=%X", "A='",
    ]);
    (source + "\n%ENDOFPROGRAM").into_bytes()
}

/// An instruction of so many orders that uses no temporaries.
fn instruction(random: &mut Random, orders: usize) -> String {
    let chain = |operators: usize| format!("1{}", "-1".repeat(operators));
    match (orders, random.below(8)) {
        (1, _) => "->1".to_string(),
        (2.., 0) => format!("SEND({})", chain(orders - 2)),
        // the comparison, the branch, and with ELSE the SKIP
        (4.., 1) => format!("%IF {}=1 %THEN ->1", chain(orders - 4)),
        (6.., 2) => format!("%IF {}=1 %THEN ->1 %ELSE ->1", chain(orders - 6)),
        (3.., 3) => format!("A=-{}", chain(orders - 3)),
        (4.., 4) => {
            let condition = format!("%IF {}=1 %THEN %START", chain(orders - 4));
            condition + "\n->1\n%FINISH"
        }
        (6.., 5) => {
            let condition = format!("%IF {}=1 %THEN %START", chain(orders - 6));
            condition + "\n->1\n%FINISH %ELSE %START\n->1\n%FINISH"
        }
        _ => format!("A={}", chain(orders - 2)),
    }
}

/// IFs in each other, of about as many levels as there may be, maybe with another refusal.
fn levels(random: &mut Random) -> Vec<u8> {
    let count = around(random, MOST_LEVELS);
    let mut source = String::from("%BEGIN\n%INTEGER A\n");
    let mut in_second = vec![false; count];
    for second in &mut in_second {
        source += random.pick(&["", "", "A=1\n", "->1\n"]);
        source += "%IF A=1 %THEN %START\n";
        *second = random.once_in(2);
        if *second {
            source += random.pick(&["A=2\n", "->1\n", "A=2\n2:\n"]);
            source += "%FINISH %ELSE %START\n";
        }
    }
    source += random.pick(&[
        "A=3\n",
        "->1\n",
        "%IF A=1 %THEN A=2\n",
        "%IF A=1 %THEN ->0\n",
        "%IF A=X %THEN A=2 %ELSE ->1\n",
        "%IF A=1 %THEN A=2 %ELSE ->1\n",
        "%IF A=1 %THEN %START A=2\n",
        "3:\n",
        "",
    ]);
    for second in in_second.into_iter().rev() {
        source += random.pick(&["", "", "", "", "3:\n", "A=4\n"]);
        if !second && random.once_in(3) {
            source += "%FINISH %ELSE %START\n->1\n";
        }
        source += "%FINISH\n";
    }
    source += random.pick(&["1:\n", "1:\n", "1:A=5\n", "1:\n%FINISH\n", "->9\n", ""]);
    (source + "%ENDOFPROGRAM\n").into_bytes()
}

/// Statements of groups in any order, with other refusals that come before 13 or after it.
fn open_groups(random: &mut Random) -> Vec<u8> {
    const GROUPS: [&str; 8] = [
        "%IF A=1 %THEN %START",
        "%IF A=1 %THEN %START",
        "2:%IF A=1 %THEN %START",
        "%FINISH",
        "%FINISH",
        "%FINISH %ELSE %START",
        "%FINISH %ELSE %START",
        "4:%FINISH",
    ];
    const OTHERS: [&str; 16] = [
        "A=1",
        "A=1",
        "->1",
        "->1",
        "->3",
        "->9",
        "3:",
        "3:A=1",
        "4:",
        "%IF A=1 %THEN ->3",
        "%IF A=1 %THEN A=1 %ELSE ->1",
        "A=X",
        "A=1+",
        "%ELSE %START",
        "%START",
        "%INTEGER B",
    ];
    let mut statements = vec!["%BEGIN", "%INTEGER A", "1:"];
    // one that is refused by itself hides what comes behind it
    let kinds = random.pick(&[5, 11, 11, 16]);
    let groups = GROUPS.len() - random.pick(&[0, 1, 1]);
    for _ in 0..random.between(1, 14) {
        statements.push(match random.below(2) {
            0 => random.pick(&GROUPS[..groups]),
            _ => random.pick(&OTHERS[..kinds]),
        });
    }
    if !random.once_in(8) {
        statements.push("%ENDOFPROGRAM");
    }
    statements.join(random.pick(&["\n", ";"])).into_bytes()
}

/// Hundreds of statements, most of them jumps of one order each, up to about the most orders.
fn many(random: &mut Random) -> Vec<u8> {
    let count = match random.below(2) {
        0 => random.between(200, MOST_ORDERS),
        _ => random.between(MOST_ORDERS - 4, MOST_ORDERS),
    };
    let mut labels: Vec<usize> = (1..=random.between(1, MOST_LABELS)).collect();
    let most = labels.len();
    let mut source = String::from("%BEGIN\n");
    // now and then none is set before the end
    let early = random.pick(&[count / MOST_LABELS, count / MOST_LABELS, count]);
    for _ in 0..count {
        if random.once_in(early) {
            let label = labels.pop().map(|label| format!("{label}:"));
            source += &label.unwrap_or_default();
            source += random.pick(&["", "\n"]);
        }
        source += &format!("->{}\n", random.between(1, most));
    }
    while let Some(label) = labels.pop() {
        source += &format!("{label}:\n");
    }
    let last = random.pick(&["", "", "", "->99\n", "A=1\n", "1:\n", "->\n", "%X\n", "'"]);
    source += last;
    source += random.pick(&["%ENDOFPROGRAM", "%ENDOFPROGRAM", ""]);
    source.into_bytes()
}

/// A label that is never set, with another refusal before it or behind it, or none.
fn never_set(random: &mut Random) -> Vec<u8> {
    const JUMPS: [&str; 4] = [
        "->9",
        "%IF A=1 %THEN ->9",
        "%IF A=1 %THEN A=2 %ELSE ->9",
        "%IF A=1 %THEN ->1 %ELSE ->9",
    ];
    const OTHERS: [&str; 14] = [
        "A=X",
        "A=1+",
        "->0",
        "1:",
        "A=''",
        "A=%X",
        "A='",
        "%INTEGER B",
        "->8",
        "A=1",
        "->1",
        "8:9:",
        "%ENDOFPROGRAM",
        "%BEGIN",
    ];
    let mut statements = vec!["%BEGIN", "%INTEGER A", "1:"];
    for _ in 0..random.between(1, 4) {
        statements.push(match random.below(3) {
            0 => random.pick(&OTHERS),
            1 => "A=1",
            _ => random.pick(&JUMPS),
        });
    }
    if !random.once_in(6) {
        statements.push("%ENDOFPROGRAM");
    }
    statements
        .join(random.pick(&["\n", ";", "\n! note\n"]))
        .into_bytes()
}
