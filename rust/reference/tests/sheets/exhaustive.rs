//! Every list of a few orders: those that are read back are as many as there are sheets.

use std::ops::RangeInclusive;

use skimp_reference::condition::Condition;
use skimp_reference::generate::every_list;
use skimp_reference::object::{Kind, Name, Order, STOP};
use skimp_reference::sheet::{Expression, Line, Operator, Relation, Sheet, Sign, Simple};
use skimp_reference::translate::{translate, Translation};
use skimp_reference::untranslate::untranslate;

/// What the sheets are made of.
struct Parts {
    variables: u32,
    plain: Vec<Expression>,
    /// With the difference and NEG.
    operations: bool,
    /// With SET and SEND.
    values: bool,
    /// With GOTO and IF.
    jumps: bool,
}

impl Parts {
    /// Every expression of so many orders.
    fn expressions(&self, orders: usize) -> Vec<Expression> {
        if orders <= 1 || !self.operations {
            return if orders == 1 {
                self.plain.clone()
            } else {
                Vec::new()
            };
        }
        let negated = |operand| Expression::Unary(Sign::Neg, Box::new(operand));
        let mut all: Vec<_> = self
            .expressions(orders - 1)
            .into_iter()
            .map(negated)
            .collect();
        for (left, right) in self.operands(orders) {
            let operands = (Box::new(left), Box::new(right));
            all.push(Expression::Binary(Operator::Sub, operands.0, operands.1));
        }
        all
    }

    /// Every two operands that have so many orders with the order on them.
    fn operands(&self, orders: usize) -> Vec<(Expression, Expression)> {
        let mut all = pairs(&self.expressions(orders - 1), &self.plain);
        for right in 2..orders.saturating_sub(4) {
            let left = self.expressions(orders - 4 - right);
            all.extend(pairs(&left, &self.expressions(right)));
        }
        all
    }

    /// Every simple instruction of so many orders, on a sheet of `whole` instructions.
    fn simples(&self, orders: usize, whole: u32) -> Vec<Simple> {
        match orders {
            0 => Vec::new(),
            1 if self.jumps => (1..=whole + 1).map(Simple::Goto).collect(),
            _ if !self.values => Vec::new(),
            _ => {
                let values = self.expressions(orders - 1);
                let sent = values.iter().cloned().map(Simple::Send);
                let set = |word| {
                    values
                        .iter()
                        .map(move |value| Simple::Set(word, value.clone()))
                };
                sent.chain((2..2 + self.variables).flat_map(set)).collect()
            }
        }
    }

    /// Every instruction that is `count` with those in its parts, of so many orders together.
    fn instructions(&self, orders: usize, count: u32, whole: u32) -> Vec<Vec<Line>> {
        if count == 1 {
            let simples = self.simples(orders, whole).into_iter();
            return simples.map(|simple| vec![Line::Simple(simple)]).collect();
        }
        let mut all = Vec::new();
        if !self.jumps || count == 0 {
            return all;
        }
        for compared in 2..orders {
            let parts = self.parts(orders - compared - 1, count - 1, whole);
            for ((left, right), lines) in pairs(&self.operands(compared), &parts) {
                let condition = Condition::comparison(Relation::Equal, left, right);
                let line = Line::If(condition);
                all.push([vec![line], lines].concat());
            }
        }
        all
    }

    /// Every one or two parts that are `count` instructions, of so many orders together, with the
    /// lines that close them.
    fn parts(&self, orders: usize, count: u32, whole: u32) -> Vec<Vec<Line>> {
        let close = |lines: Vec<Line>| [lines, vec![Line::Finish]].concat();
        let alone = self.lists(orders, count, whole).into_iter();
        let mut all: Vec<_> = alone.map(close).collect();
        for first in 1..orders {
            for in_first in 1..count {
                let firsts = self.lists(first, in_first, whole);
                // the SKIP
                let seconds = self.lists(orders - first - 1, count - in_first, whole);
                for (first, second) in pairs(&firsts, &seconds) {
                    all.push(close([first, vec![Line::Else], second].concat()));
                }
            }
        }
        all
    }

    /// Every list that is `count` instructions of the whole, of so many orders.
    fn lists(&self, orders: usize, count: u32, whole: u32) -> Vec<Vec<Line>> {
        if count == 0 || orders == 0 {
            return match (orders, count) {
                (0, 0) => vec![Vec::new()],
                _ => Vec::new(),
            };
        }
        let mut all = Vec::new();
        for first in 1..=orders {
            for in_first in 1..=count {
                let firsts = self.instructions(first, in_first, whole);
                let rests = self.lists(orders - first, count - in_first, whole);
                for (first, rest) in pairs(&firsts, &rests) {
                    all.push([first, rest].concat());
                }
            }
        }
        all
    }

    /// Every sheet of so many orders before STOP.
    fn sheets(&self, orders: usize) -> Vec<Sheet> {
        let lists = (0..=orders as u32).flat_map(|count| self.lists(orders, count, count));
        let sheet = |lines| Sheet {
            variables: self.variables,
            lines,
        };
        lists.map(sheet).collect()
    }

    /// Reads back every list of so many of the orders, and gives how many are translations with
    /// so many temporaries.
    fn check(&self, alphabet: &[Order], orders: usize, temporaries: u32) -> usize {
        let mut expected: Vec<_> = self.sheets(orders);
        expected.retain(|sheet| {
            let translation = translate(sheet).expect("few orders");
            assert_eq!(translation.orders.len(), orders + 1, "{}", sheet.text());
            let known = |order: &Order| *order == STOP || alphabet.contains(order);
            assert!(translation.orders.iter().all(known), "{}", sheet.text());
            assert_eq!(untranslate(&translation).as_ref(), Some(sheet));
            translation.temporaries == temporaries
        });
        let mut accepted = 0;
        let mut translation = Translation {
            variables: self.variables,
            temporaries,
            orders: Vec::new(),
        };
        every_list(alphabet, orders, |list| {
            translation.orders.clear();
            translation.orders.extend_from_slice(list);
            accepted += usize::from(untranslate(&translation).is_some());
        });
        assert_eq!(accepted, expected.len(), "{orders} orders");
        accepted
    }
}

fn pairs<A: Clone, B: Clone>(firsts: &[A], seconds: &[B]) -> Vec<(A, B)> {
    let with = |first: &A, second: &B| (first.clone(), second.clone());
    let of = |first| seconds.iter().map(move |second| with(first, second));
    firsts.iter().flat_map(of).collect()
}

fn order(name: Name, kind: Kind, number: u32) -> Order {
    Order { name, kind, number }
}

/// Each of the jumps to each of the addresses.
fn to_each(names: &[Name], addresses: RangeInclusive<u32>) -> Vec<Order> {
    let pairs = pairs(names, &addresses.collect::<Vec<_>>());
    let jump = |(name, address)| order(name, Kind::Address, address);
    pairs.into_iter().map(jump).collect()
}

/// How many sheets have so many orders before STOP, worked out by hand. With g jumps, two plain
/// operands and 4 * 3^(m-2) instructions SET and SEND of m orders, those of four orders are 36 of one
/// instruction, 88 + 4g of two, 12g^2 of three and g^4 of four; of five orders 108, 312 + 16 + 12g,
/// 36g^2 + 48g + 12g^2, 16g^3 and g^5; and g is one more than the instructions.
const SHEETS: [usize; 6] = [1, 2, 13, 100, 953, 11_208];

#[test]
fn without_temporaries() {
    let parts = Parts {
        variables: 1,
        plain: vec![Expression::Word(2), Expression::Constant(0)],
        operations: true,
        values: true,
        jumps: true,
    };
    for (orders, sheets) in SHEETS.into_iter().enumerate() {
        let mut alphabet = vec![
            order(Name::Neg, Kind::Nothing, 0),
            order(Name::Send, Kind::Nothing, 0),
            order(Name::Str, Kind::Word, 2),
            order(Name::Cond, Kind::Number, 2),
            STOP,
        ];
        for name in [Name::Load, Name::Sub, Name::Cmp] {
            alphabet.push(order(name, Kind::Word, 2));
            alphabet.push(order(name, Kind::Number, 0));
        }
        alphabet.extend(to_each(
            &[Name::Jmp, Name::Skip, Name::Bne],
            0..=orders as u32,
        ));
        assert_eq!(parts.check(&alphabet, orders, 0), sheets);
    }
}

/// Enough orders for ELSE.
#[test]
fn jumps() {
    let parts = Parts {
        variables: 0,
        plain: vec![Expression::Constant(0)],
        operations: false,
        values: false,
        jumps: true,
    };
    let mut alphabet = vec![
        order(Name::Load, Kind::Number, 0),
        order(Name::Cmp, Kind::Number, 0),
    ];
    alphabet.extend(to_each(&[Name::Jmp], 0..=6));
    alphabet.extend(to_each(&[Name::Bne], 3..=6));
    alphabet.extend(to_each(&[Name::Skip], 4..=6));
    // six jumps; an IF with one of three jumps, two or all of them as its part; a jump in each part
    assert_eq!(
        parts.check(&alphabet, 6, 0),
        7_usize.pow(6) + (3 + 2 + 1) * 5 * 5 * 5 + 4 * 4
    );
}

/// Enough orders for a condition of two comparisons. Sheets of eight orders are: eight jumps; an IF that
/// ends at order 7, at four places, or at order 8, at five; an IF in another, both ending at 8, with a
/// jump more at three places, or the inner one at 7; and both runs of two comparisons.
#[test]
fn joined_conditions() {
    let mut alphabet = vec![
        order(Name::Cond, Kind::Number, 2),
        order(Name::Load, Kind::Number, 0),
        order(Name::Cmp, Kind::Number, 0),
        order(Name::Jmp, Kind::Address, 0),
    ];
    alphabet.extend(to_each(&[Name::Bne], 7..=8));
    let mut translation = Translation {
        variables: 0,
        temporaries: 0,
        orders: Vec::new(),
    };
    let (mut accepted, mut joined) = (0, Vec::new());
    every_list(&alphabet, 8, |list| {
        translation.orders.clear();
        translation.orders.extend_from_slice(list);
        if let Some(sheet) = untranslate(&translation) {
            accepted += 1;
            let is_joined = list.iter().any(|order| order.name == Name::Cond);
            joined.extend(is_joined.then(|| sheet.text().replace('\t', " ")));
        }
    });
    joined.sort();
    assert_eq!(
        joined,
        [
            "SHEET 0 2\nIF AND 2 = K0 K0 = K0 K0\nSTART\nGOTO 1\nFINISH\n",
            "SHEET 0 2\nIF OR 2 # K0 K0 = K0 K0\nSTART\nGOTO 1\nFINISH\n",
        ]
    );
    assert_eq!(accepted, 1 + (4 + 5) + (3 + 2) + 2);
}

#[test]
fn temporaries() {
    let parts = Parts {
        variables: 0,
        plain: vec![Expression::Constant(0)],
        operations: true,
        values: true,
        jumps: false,
    };
    let alphabet = [
        order(Name::Load, Kind::Number, 0),
        order(Name::Load, Kind::Word, 2),
        order(Name::Str, Kind::Word, 2),
        order(Name::Str, Kind::Word, 3),
        order(Name::Sub, Kind::Number, 0),
        order(Name::Sub, Kind::Word, 3),
        order(Name::Neg, Kind::Nothing, 0),
        order(Name::Send, Kind::Nothing, 0),
    ];
    assert_eq!(parts.check(&alphabet, 7, 2), 0);
    // SEND - K0 NEG K0 and SEND - K0 - K0 K0
    assert_eq!(parts.check(&alphabet, 8, 2), 2);
}
