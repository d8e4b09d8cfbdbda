//! Inputs that need much stack, and random ones: what is refused counts as well as what is accepted.

mod conditions;

use skimp_reference::damage::orders::DAMAGES;
use skimp_reference::generate::Plan;
use skimp_reference::random::Random;
use skimp_reference::translate::translate;
use skimp_reference::writing::source;

#[derive(Clone, Copy, Debug, PartialEq, Eq)]
pub enum Call {
    Compile,
    ReadBack,
    Run,
}

pub const CALLS: [Call; 3] = [Call::Compile, Call::ReadBack, Call::Run];

impl Call {
    /// What include/skimp.h says that the call needs.
    pub fn stack_bytes(self) -> usize {
        match self {
            Call::Compile => skimp::COMPILE_STACK_BYTES,
            Call::ReadBack => skimp::READ_BACK_STACK_BYTES,
            Call::Run => skimp::RUN_STACK_BYTES,
        }
    }

    pub fn inputs(self) -> Vec<Vec<u8>> {
        match self {
            Call::Compile => sources(),
            Call::ReadBack | Call::Run => objects(),
        }
    }
}

/// The cells of a statement before its end mark.
const CELLS: usize = skimp::MOST_CELLS - 1;
/// How many right operands in each other use all temporaries.
const DEEPEST: usize = skimp::MOST_TEMPORARIES - 1;
const LEVELS: usize = skimp::MOST_LEVELS;

/// What may stand before an expression, and what closes it.
const FORMS: [(&str, &str); 8] = [
    ("A=", ""),
    ("SEND(", ")"),
    ("%IF ", "=A%THEN A=A"),
    ("%IF A=", "%THEN A=A"),
    ("%IF A=A %THEN A=", ""),
    ("%IF A=A %THEN SEND(", ")"),
    ("1:%IF A=A %THEN A=A %ELSE SEND(", ")"),
    ("%IF A=", "%THEN %START\nA=A\n%FINISH"),
];

/// What an expression nests, over and over, with what closes it.
const PIECES: [(&str, &str); 20] = [
    ("(", ")"),
    ("-(", ")"),
    ("\\(", ")"),
    ("+(", ")"),
    ("(-(", "))"),
    ("A-(", ")"),
    ("A*(", ")"),
    ("A**(", ")"),
    ("-A-(", ")"),
    ("\\A**(", ")"),
    ("A-A*(", ")"),
    ("A-A*A**(", ")"),
    ("-A*A**(", ")"),
    ("(A", ")"),
    ("A-", ""),
    ("A*", ""),
    ("A**", ""),
    ("A-A*A**", ""),
    ("-", ""),
    ("\\", ""),
];

/// How many cells a text has.
fn cells(text: &str) -> usize {
    text.bytes().filter(|byte| !b" %".contains(byte)).count()
}

/// Statements of as many cells as there may be, and of as many temporaries.
fn statements() -> Vec<String> {
    let mut statements = Vec::new();
    for (start, end) in FORMS {
        for (open, close) in PIECES {
            // left open, it nests deeper than any that is accepted
            let deepest = (CELLS - cells(start)) / cells(open);
            for last in ["", "A"] {
                let nested = open.repeat(deepest);
                statements.push(format!("{start}{}{last}", &nested[last.len()..]));
            }
            let room = CELLS - cells(start) - cells(end) - 1;
            let most = room / cells(&[open, close].concat());
            for depth in [most, most.min(DEEPEST), most.min(DEEPEST - 1)] {
                let (nested, closed) = (open.repeat(depth), close.repeat(depth));
                statements.push(format!("{start}{nested}A{closed}{end}"));
            }
        }
    }
    statements
}

/// Groups in each other, as deep as may be and deeper, closed or left open, around a long statement.
fn groups() -> Vec<String> {
    let mut groups = Vec::new();
    for levels in [1, LEVELS - 1, LEVELS, LEVELS + 1] {
        for open in [
            "%IF A=A %THEN %START\n",
            "%IF A=A %THEN %START\n->1\n1:\n%FINISH %ELSE %START\n",
        ] {
            // a label is set once
            let open = open.to_string() + &open.replace("1:\n", "").repeat(levels - 1);
            let chain = "A-(".repeat(DEEPEST) + "A" + &")".repeat(DEEPEST);
            let inside = format!("A={chain}\n");
            groups.push(open.clone() + &inside);
            groups.push(open + &inside + &"%FINISH\n".repeat(levels));
        }
    }
    groups
}

/// As many names as there may be, and many more: of as many letters as fit, and of few, with as many
/// as one statement takes behind them.
fn names() -> Vec<String> {
    let declared = |count: usize, letters: usize| {
        let names = (0..count).map(|number| format!("%INTEGER N{number:0>letters$}\n"));
        format!("%BEGIN\n{}", names.collect::<String>())
    };
    let most = skimp::MOST_VARIABLES;
    // the bytes of `%INTEGER`, of the space, the N and the newline
    let longest = |count: usize| skimp::SOURCE_MOST / count - 12;
    let mut sources = vec![declared(63, 230), declared(most, longest(most))];
    let list = vec!["A"; 124].join(",");
    for count in [0, most - 1, most] {
        sources.push(format!("{}%INTEGER {list}\n", declared(count, 3)));
        let different: Vec<String> = (10..70).map(|number| format!("B{number}")).collect();
        let list = different.join(",");
        sources.push(format!("{}%INTEGER {list}\n", declared(count, 3)));
    }
    sources
}

fn sources() -> Vec<Vec<u8>> {
    let program = |text: String| format!("%BEGIN\n%INTEGER A\n{text}\n%ENDOFPROGRAM\n");
    let texts = statements().into_iter().chain(groups());
    let texts = texts.chain(conditions::statements());
    let mut sources: Vec<String> = texts.map(program).collect();
    // full tables: names, labels, jumps; and cells in quotes up to the last
    sources.extend(names());
    let labels = (1..=skimp::MOST_LABELS).map(|label| format!("{label}:->{label}\n"));
    sources.push(program(labels.collect()));
    sources.push(program(format!("1:{}", "->1\n".repeat(ORDERS))));
    sources.push(program(format!("A='{}'", ";\n".repeat(CELLS / 2 - 1))));
    sources.push(String::new());
    let mut sources: Vec<Vec<u8>> = sources.into_iter().map(String::into_bytes).collect();
    let mut random = Random(81);
    sources.extend((0..2000).map(|_| source(&mut random).1));
    sources
}

/// What orders may begin with. `stop` is the place of STOP, and `last` that of the order before it.
const STARTS: [&str; 6] = [
    "LOAD D 2",
    "",
    "LOAD D 2;CMP K 0;BNE A last",
    "LOAD D 2;CMP K 0;BNE A 4;JMP A 0",
    "LOAD D 2;CMP K 0;BNE A 5;JMP A 0;SKIP A stop",
    "LOAD D 2;STR D 3;LOAD D 2",
];

/// What comes over and over.
const PARTS: [&str; 21] = [
    "NEG - 0",
    "NOT - 0",
    "SUB K 1",
    "ADD D 2",
    "NEG - 0;SUB K 1",
    "LOAD D 2;STR D 2",
    "LOAD D 2",
    "STR D 2",
    "JMP A 0",
    "SKIP A stop",
    "BNE A 0",
    "CMP D 2",
    "SEND - 0",
    "LOAD D 2;CMP K 0;BNE A stop;JMP A 0",
    "LOAD D 2;CMP K 0;BNE A stop",
    "COND K 2",
    "COND K 2;LOAD D 2;CMP K 0;BNE A stop;LOAD D 2;CMP K 0;BNE A stop",
    "COND K 16;LOAD D 2;CMP K 0;BE A last",
    "STR D 3;LOAD D 2;NEG - 0;STR D 4;LOAD D 3;SUB D 4",
    "STR D 3;STR D 4;LOAD D 3;SUB D 4",
    "STR D 4;LOAD D 3;SUB D 4",
];

/// What they may end with.
const ENDS: [&str; 8] = [
    "STR D 2",
    "SEND - 0",
    "",
    "CMP K 0;BNE A stop;JMP A 0",
    "CMP K 0;BNE A last;SKIP A stop;JMP A 0",
    "CMP K 0;BNE A last;LOAD K 1;SEND - 0",
    "STR D 4;LOAD D 3;SUB D 4;STR D 2",
    "STR D 4;LOAD D 3;CMP D 4;BNE A stop;JMP A 0",
];

/// The orders before STOP.
const ORDERS: usize = skimp::MOST_ORDERS - 1;

/// One variable, and temporaries from word 3.
fn object(temporaries: usize, orders: &[String]) -> Vec<u8> {
    let (count, lines) = (orders.len() + 1, orders.join("\n"));
    let text = format!("BOX 1 {temporaries} {count}\n{lines}\nSTOP - 0\n");
    text.replace(' ', "\t").into_bytes()
}

/// The orders of a part.
fn orders(part: &str) -> Vec<String> {
    let (stop, last) = (ORDERS.to_string(), (ORDERS - 1).to_string());
    let parts = part.split(';').filter(|order| !order.is_empty());
    parts
        .map(|order| order.replace("stop", &stop).replace("last", &last))
        .collect()
}

/// One order over and over.
fn times(order: &str, count: usize) -> Vec<String> {
    vec![order.to_string(); count]
}

fn objects() -> Vec<Vec<u8>> {
    let mut objects = Vec::new();
    for start in STARTS.map(orders) {
        for part in PARTS.map(orders) {
            for end in ENDS.map(orders) {
                let left = ORDERS - start.len() - end.len();
                let rest = times("NEG - 0", left % part.len());
                let parts = vec![part.clone(); left / part.len()].concat();
                let all = [start.clone(), rest, parts, end].concat();
                let temporaries = [0, 2, skimp::MOST_TEMPORARIES];
                objects.extend(temporaries.map(|temporaries| object(temporaries, &all)));
            }
        }
    }
    for levels in [0, LEVELS - 1, LEVELS] {
        for depth in 1..=DEEPEST {
            objects.extend([0, 1, 2].map(|place| nested(levels, depth, place)));
        }
    }
    for levels in [1, LEVELS - 1, LEVELS, LEVELS + 1, 200] {
        objects.extend([inner_parts(levels), skips(levels)]);
    }
    objects.extend(conditions::objects());
    let mut random = Random(82);
    let most = [skimp::MOST_VARIABLES, skimp::MOST_TEMPORARIES, ORDERS + 1];
    for one in [false, true] {
        let sheet = Plan::exact_sheet(&mut random, most.map(|size| size as u32), one);
        let translation = translate(&sheet).expect("within the limits");
        objects.push(translation.text().into_bytes());
    }
    for _ in 0..200 {
        let sheet = Plan::large_sheet(&mut random);
        let mut translation = translate(&sheet).expect("within the limits");
        objects.push(translation.text().into_bytes());
        random.pick(&DAMAGES).1(&mut random, &mut translation);
        objects.push(translation.text().into_bytes());
    }
    objects
}

/// Conditions in each other, all of whose parts end with the program.
fn conditions(levels: usize) -> Vec<String> {
    orders(&"LOAD D 2;CMP K 0;BNE A stop;".repeat(levels))
}

/// Conditions around a chain of all other orders.
fn inner_parts(levels: usize) -> Vec<u8> {
    let mut all = conditions(levels);
    all.push("LOAD D 2".to_string());
    all.extend(times("NEG - 0", ORDERS - all.len() - 1));
    all.push("STR D 2".to_string());
    object(0, &all)
}

/// Conditions in the first parts of each other, so that each SKIP leads to the next one.
fn skips(levels: usize) -> Vec<u8> {
    let levels = levels.min(ORDERS / 5 - 1);
    let innermost = 3 * levels + 1;
    let mut all = Vec::new();
    for level in (0..levels).rev() {
        let second = innermost + 2 * level + 1;
        all.extend(orders(&format!("LOAD D 2;CMP K 0;BNE A {second}")));
    }
    all.push("JMP A 0".to_string());
    for level in 0..levels {
        let past = innermost + 2 * level + 2;
        all.extend(orders(&format!("SKIP A {past};JMP A 0")));
    }
    object(0, &all)
}

/// The translation of an expression that nests to the right, in so many conditions, the orders that
/// are left as a chain in its left operand, inside, or behind it.
fn nested(levels: usize, depth: usize, place: usize) -> Vec<u8> {
    let mut all = conditions(levels);
    let left = ORDERS - all.len() - 5 * depth - 3;
    let chain = |here: usize| times("NEG - 0", if here == place { left } else { 0 });
    all.push("LOAD D 2".to_string());
    all.extend(chain(0));
    for level in 0..depth {
        all.push(format!("STR D {}", 3 + level));
        all.push("LOAD D 2".to_string());
    }
    all.push("NEG - 0".to_string());
    all.extend(chain(1));
    for left in (3..3 + depth).rev() {
        let right = left + 1;
        all.extend(orders(&format!(
            "STR D {right};LOAD D {left};SUB D {right}"
        )));
    }
    all.extend(chain(2));
    all.push("STR D 2".to_string());
    object(depth + 1, &all)
}
