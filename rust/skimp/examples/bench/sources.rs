//! Sources: a small program, 60 names of 200 letters and as many short ones as there may be, a random
//! program, joined conditions, groups in groups, and those found to cost most for a byte or most against
//! the reference.

use skimp::{MOST_COMPARISONS, MOST_LABELS, SOURCE_MOST};
use skimp_reference::generate::Plan;
use skimp_reference::random::Random;
use skimp_reference::writing::program::write;
use skimp_reference::writing::spelling::Style;

use crate::inputs::{Input, Size, MOST_LEVELS};

/// The names of 200 letters: they leave room in the most bytes for 18 of them to be sent.
const LONG_NAMES: usize = 60;
/// The cells of a statement before its end mark.
const MOST_CELLS: usize = skimp::MOST_CELLS - 1;

pub fn all() -> Vec<Input> {
    let small = include_str!("../../../../examples/heater.skimp");
    let mut inputs = vec![
        Input::new("small", small.to_string()),
        Input::new("empty", program("", "")),
        Input::new("60 long names", long_names(names(LONG_NAMES, 200))),
        Input::new(
            "60 long names, heads",
            long_names(headed_names(LONG_NAMES, 200)),
        ),
    ];
    inputs.extend(of_sizes());
    inputs.extend([
        Input::new("random", random()),
        Input::new("brackets", with_a(&brackets())),
        Input::new("comments", filled(&format!("!{}\n", "*".repeat(79)))),
        Input::new("spaces", filled(" ")),
    ]);
    inputs
}

/// Those that go to the limit of variables, then those that go to that of orders.
fn of_sizes() -> Vec<Input> {
    [
        Input::of_sizes("like names", |size| {
            like_names(size, &names(size.variables, 30), 1)
        }),
        Input::of_sizes("names alike at ends", |size| {
            like_names(size, &middle_names(size.variables, 14), 1)
        }),
        Input::of_sizes("short names", |size| {
            like_names(size, &names(size.variables, 2), 1)
        }),
        Input::of_sizes("all short names", |size| {
            like_names(size, &names(size.variables, 2), size.variables)
        }),
        Input::of_sizes("assignments", |size| {
            with_a(&"A=A\n".repeat(size.orders / 2))
        }),
        Input::of_sizes("jumps", jumps),
        Input::of_sizes("conditions", |size| conditions(size, "", 4)),
        Input::of_sizes("with ELSE", |size| conditions(size, "%ELSE->1", 6)),
        Input::of_sizes("joined", |size| joined(size, &run(MOST_COMPARISONS))),
        Input::of_sizes("joined, deep", |size| {
            joined(size, &deep_condition(MOST_COMPARISONS))
        }),
        Input::of_sizes("groups", |size| with_a(&groups(size))),
        Input::of_sizes("deep groups", |size| with_a(&deep_groups(size))),
        Input::of_sizes("chains", |size| with_a(&chains(size, "A=A", "-A"))),
        Input::of_sizes("constants", |size| {
            let chains = chains(size, "A='zzzz'", "!!'zzzz'");
            with_a(fitting(&chains, &with_a("")))
        }),
        Input::of_sizes("nested", |size| with_a(&nested(size))),
    ]
    .into_iter()
    .flatten()
    .collect()
}

fn program(declarations: &str, instructions: &str) -> String {
    format!("%BEGIN\n{declarations}{instructions}%ENDOFPROGRAM\n")
}

/// A program with the one variable A.
fn with_a(instructions: &str) -> String {
    program("%INTEGER A\n", instructions)
}

/// So many names of two letters, the second a digit.
fn short_names(count: usize) -> impl Iterator<Item = String> {
    let letter = |first: u8, place: usize| char::from(first + place as u8);
    (0..count).map(move |place| {
        let (row, column) = (letter(b'A', place / 8), letter(b'0', place % 8));
        format!("{row}{column}")
    })
}

/// So many names of so many letters, which differ in the last two only.
fn names(count: usize, letters: usize) -> Vec<String> {
    let front = "N".repeat(letters - 2);
    short_names(count).map(|end| front.clone() + &end).collect()
}

/// The same, but they differ in the first two only.
fn headed_names(count: usize, letters: usize) -> Vec<String> {
    let rest = "N".repeat(letters - 2);
    short_names(count).map(|head| head + &rest).collect()
}

/// The same, but they differ in two letters in the middle only.
fn middle_names(count: usize, letters: usize) -> Vec<String> {
    let half = "N".repeat(letters / 2 - 1);
    let middle = |two: String| format!("{half}{two}{half}");
    short_names(count).map(middle).collect()
}

/// Their declarations, as few statements as there may be.
fn declarations(names: &[String]) -> String {
    // each name has a comma behind it but the last
    let room = MOST_CELLS + 1 - "INTEGER".len();
    let lists = names.chunks(room / (names[0].len() + 1));
    let lists = lists.map(|list| format!("%INTEGER {}\n", list.join(",")));
    lists.collect()
}

/// Long names, each declared by itself, and sent, the last first, up to the most bytes.
fn long_names(names: Vec<String>) -> String {
    let lists = declarations(&names);
    let mut sends = String::new();
    for name in names.iter().rev().cycle() {
        let send = format!("SEND({name})\n");
        if program(&lists, &sends).len() + send.len() > SOURCE_MOST {
            break;
        }
        sends += &send;
    }
    padded(program(&lists, &sends))
}

/// A comment behind the program, up to the most bytes.
fn padded(source: String) -> String {
    let room = SOURCE_MOST - source.len() - 1;
    format!("{source}!{}", "*".repeat(room))
}

/// Names of one length. The last of them, so many, are used one after the other, over and over, up to
/// the most bytes or orders.
fn like_names(size: Size, names: &[String], used: usize) -> String {
    let letters = names[0].len();
    let lists = declarations(names);
    let mut turn = names[names.len() - used..].iter().cycle();
    // no program has this: it stands for a name until all statements are there
    let any = "?".repeat(letters);
    let statements = chains(size, &format!("{any}={any}"), &format!("-{any}"));
    let statements = fitting(&statements, &program(&lists, ""));
    let named = statements
        .split_inclusive(&any)
        .map(|piece| match piece.strip_suffix(&any) {
            Some(front) => front.to_string() + turn.next().expect("a name"),
            None => piece.to_string(),
        });
    program(&lists, &named.collect::<String>())
}

/// As many of the statements as fit into the most bytes with what is around them.
fn fitting<'s>(statements: &'s str, around: &str) -> &'s str {
    let room = SOURCE_MOST - around.len();
    let end = statements[..room.min(statements.len())].rfind('\n');
    &statements[..=end.expect("a statement")]
}

/// A random program of all orders, in a random spelling.
fn random() -> String {
    let mut random = Random(91);
    loop {
        let plan = Plan {
            short: true,
            ..Plan::random(&mut random)
        };
        let sheet = plan.sheet(&mut random, skimp::MOST_ORDERS);
        let source = write(&mut random, &sheet)
            .map(|statements| Style::random(&mut random).source(&mut random, &statements));
        if let Some(text) = source.filter(|text| text.len() <= SOURCE_MOST) {
            return String::from_utf8(text).expect("allowed bytes");
        }
    }
}

/// All labels before the first instruction, and all jumps to the one that was set last.
fn jumps(size: Size) -> String {
    let last = skimp::GREATEST_LABEL;
    let labels = (last + 1 - MOST_LABELS..=last).map(|label| format!("{label}:\n"));
    let jumps = format!("->{last}\n").repeat(size.orders);
    program("", &(labels.collect::<String>() + &jumps))
}

/// As many as fit, of so many orders each.
fn conditions(size: Size, otherwise: &str, orders: usize) -> String {
    let condition = format!("%IF A=A%THEN->1{otherwise}\n");
    with_a(&format!("1:{}", condition.repeat(size.orders / orders)))
}

/// IFs with a condition of the most comparisons, as many as fit: COND, three orders of each comparison,
/// and a jump.
fn joined(size: Size, condition: &str) -> String {
    let orders = 1 + 3 * MOST_COMPARISONS + 1;
    let statement = format!("%IF {condition}%THEN->1\n");
    with_a(&format!("1:{}", statement.repeat(size.orders / orders)))
}

/// A run of so many comparisons.
fn run(count: usize) -> String {
    vec!["A=A"; count].join("%AND ")
}

/// Runs of the two words in turn, each the last member of the one before it.
fn deep_condition(count: usize) -> String {
    let word = |place: usize| ["A=A%AND(", "A=A%OR("][place % 2];
    let open: String = (0..count - 1).map(word).collect();
    format!("{open}A=A{}", ")".repeat(count - 1))
}

/// Groups with a second one behind each, of ten orders, one after the other.
fn groups(size: Size) -> String {
    let group = "%IF A=A%THENSTART\nA=A\n->1\n%FINISHELSESTART\nA=A\n->1\n%FINISH\n";
    format!("1:{}", group.repeat(size.orders / 10))
}

/// Groups in each other as deep as may be, each in the second one of the group around it, and labels
/// behind the first ones, which all lead behind the outermost; as often as fits.
fn deep_groups(size: Size) -> String {
    let deep = |number: usize| {
        let label = |level| 1 + number * MOST_LEVELS + level;
        let open = |level| match label(level) {
            label if label <= MOST_LABELS => {
                format!("%IF A=A%THENSTART\n->1\n{label}:\n%FINISHELSESTART\n")
            }
            _ => "%IF A=A%THENSTART\n->1\n%FINISHELSESTART\n".to_string(),
        };
        let opened: String = (0..MOST_LEVELS).map(open).collect();
        format!("{opened}A=A\n{}", "%FINISH\n".repeat(MOST_LEVELS))
    };
    // a comparison and its branch, a jump and a SKIP on each level
    let orders = 5 * MOST_LEVELS + 2;
    let mut groups = String::new();
    for group in (0..size.orders / orders).map(deep) {
        if with_a(&groups).len() + group.len() > SOURCE_MOST {
            break;
        }
        groups += &group;
    }
    groups
}

/// Statements of a first operand and of as many pieces, each of one order, as fit in the cells; and
/// so many statements that they have all orders.
fn chains(size: Size, first: &str, piece: &str) -> String {
    // LOAD and STR
    let around = 2;
    let most = (MOST_CELLS - first.len()) / piece.len() + around;
    let statement = |orders: usize| format!("{first}{}\n", piece.repeat(orders - around));
    let whole = statement(most).repeat(size.orders / most);
    match size.orders % most {
        rest if rest >= around => whole + &statement(rest),
        _ => whole,
    }
}

/// Expressions that use all temporaries: one pair of brackets less, of five orders each.
fn nested(size: Size) -> String {
    let depth = skimp::MOST_TEMPORARIES - 1;
    let statement = format!("A={}\\A{}\n", "A-(".repeat(depth), ")".repeat(depth));
    statement.repeat(size.orders / (depth * 5 + 3))
}

/// A variable in brackets, as many as fit in the cells.
fn brackets() -> String {
    let depth = (MOST_CELLS - "A=A".len()) / 2;
    let statement = format!("A={}A{}\n", "(".repeat(depth), ")".repeat(depth));
    statement.repeat((SOURCE_MOST - with_a("").len()) / statement.len())
}

/// An empty program, and something that is skipped in it up to the most bytes.
fn filled(skipped: &str) -> String {
    let room = SOURCE_MOST - program("", "").len();
    program(&skipped.repeat(room / skipped.len()), "")
}
