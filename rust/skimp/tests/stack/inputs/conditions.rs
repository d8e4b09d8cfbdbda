//! Conditions that need much stack: deep in brackets, and of as many comparisons as there may be.

use skimp_reference::condition::{Condition, Joining};
use skimp_reference::object::Kind;
use skimp_reference::sheet::{Expression, Line, Operator, Relation, Sheet, Sign, Simple};
use skimp_reference::translate::without_limits;

use super::{cells, CELLS, DEEPEST, LEVELS};

const COMPARISONS: usize = skimp::MOST_COMPARISONS;

/// What a condition nests, over and over, with what closes it.
const PIECES: [(&str, &str); 10] = [
    ("(", ")"),
    ("A=A%OR(", ")"),
    ("(A=A%OR ", ")"),
    ("A=A%AND(A=A%OR(", "))"),
    ("(A=A%AND(A=A%OR ", "))"),
    ("((", ")%OR A=A)"),
    ("((", ")%OR A=A)%AND A=A"),
    ("A=A%OR ", ""),
    ("-A=A%AND(", ")"),
    ("(A)=A%OR((", "))"),
];

/// Statements of as many cells as there may be, and of as many comparisons: left open, which nests
/// deeper than any that is accepted, and closed.
pub fn statements() -> Vec<String> {
    let (start, end) = ("%IF ", "%THEN A=A");
    let mut statements = Vec::new();
    for (open, close) in PIECES {
        let open_only = (CELLS - cells(start)) / cells(open);
        statements.push(format!("{start}{}", open.repeat(open_only)));
        let room = CELLS - cells(start) - cells(end) - "A=A".len();
        let most = room / cells(&[open, close].concat());
        // those of one piece, and A=A
        let comparisons = [open, close].concat().matches("=A").count().max(1);
        let accepted = (COMPARISONS - 1) / comparisons;
        for depth in [most, most.min(accepted), most.min(accepted + 1)] {
            let (nested, closed) = (open.repeat(depth), close.repeat(depth));
            statements.push(format!("{start}{nested}A=A{closed}{end}"));
        }
        // an expression that nests as deep as the cells allow, inside
        let depth = accepted.min(6);
        let (nested, closed) = (open.repeat(depth), close.repeat(depth));
        let left = CELLS - cells(start) - cells(end) - cells(&nested) - cells(&closed) - 4;
        let inner = (left / 4).min(DEEPEST);
        let chain = format!("{}A{}", "A-(".repeat(inner), ")".repeat(inner));
        statements.push(format!("{start}{nested}A={chain}{closed}{end}"));
    }
    statements.into_iter().flat_map(in_groups).collect()
}

/// A statement alone, and in as many groups as there may be.
fn in_groups(statement: String) -> [String; 2] {
    let open = "%IF A=A %THEN %START\n".repeat(LEVELS - 1);
    let close = "\n%FINISH".repeat(LEVELS - 1);
    [statement.clone(), format!("{open}{statement}{close}")]
}

/// An expression of so many right operands in each other.
fn nested(depth: usize) -> Expression {
    let word = || Expression::Word(2);
    let mut value = Expression::Unary(Sign::Neg, Box::new(word()));
    for _ in 0..depth {
        value = Expression::Binary(Operator::Sub, Box::new(word()), Box::new(value));
    }
    value
}

/// Conditions of so many comparisons: a run, and runs in each other at the last member and at the first.
/// The comparison of number `deep` has an expression of many temporaries.
fn shapes(count: usize, deep: usize) -> Vec<Condition> {
    let comparison = |number: usize| {
        let right = match number == deep {
            true => nested(DEEPEST - 1),
            false => Expression::Constant(0),
        };
        Condition::comparison(Relation::Equal, Expression::Word(2), right)
    };
    let mut shapes = Vec::new();
    for word in [Joining::And, Joining::Or] {
        shapes.push(Condition::Run(word, (0..count).map(comparison).collect()));
        let (mut last, mut first) = (comparison(count - 1), comparison(0));
        let mut turn = word;
        for number in 1..count {
            last = Condition::Run(turn, vec![comparison(count - 1 - number), last]);
            first = Condition::Run(turn, vec![first, comparison(number)]);
            turn = turn.other();
        }
        shapes.extend([last, first]);
    }
    shapes
}

/// IFs in each other with such a condition each, and objects that are nearly theirs.
pub fn objects() -> Vec<Vec<u8>> {
    let mut objects = Vec::new();
    for (count, levels) in [
        (COMPARISONS, 1),
        (COMPARISONS, LEVELS),
        (COMPARISONS + 1, 1),
        (2, LEVELS),
        (2, LEVELS + 1),
    ] {
        for deep in [0, count / 2, count - 1, count] {
            for condition in shapes(count, deep) {
                let mut lines = vec![Line::If(condition); levels];
                // only the innermost has the deep expression, so that all orders fit
                for line in &mut lines[..levels - 1] {
                    *line = Line::If(shapes(count, count)[0].clone());
                }
                lines.push(Line::Simple(Simple::Set(2, nested(DEEPEST))));
                lines.extend(vec![Line::Finish; levels]);
                let sheet = Sheet {
                    variables: 1,
                    lines,
                };
                objects.extend(with_other_targets(&sheet));
            }
        }
    }
    objects
}

/// The translation of a sheet, and the same with all jumps and branches led to the next order, to STOP,
/// and past the next comparison.
fn with_other_targets(sheet: &Sheet) -> Vec<Vec<u8>> {
    let whole = without_limits(sheet);
    let stop = whole.orders.len() as u32 - 1;
    let mut objects = vec![whole.text().into_bytes()];
    let targets: [fn(u32, u32) -> u32; 3] = [
        |place, _| place + 1,
        |_, stop| stop,
        |place, stop| stop.min(place + 4),
    ];
    for target in targets {
        let mut other = whole.clone();
        for (place, order) in other.orders.iter_mut().enumerate() {
            if order.kind == Kind::Address {
                order.number = target(place as u32, stop);
            }
        }
        objects.push(other.text().into_bytes());
    }
    objects
}
