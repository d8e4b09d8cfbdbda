//! Sheets at the limits, and past one of them by one.

use skimp_reference::agree::{Compared, READ_BACK};
use skimp_reference::census::Census;
use skimp_reference::condition::{Comparison, Condition, Joining};
use skimp_reference::generate::conditions::joined;
use skimp_reference::generate::Plan;
use skimp_reference::random::Random;
use skimp_reference::sheet::{Expression, Line, Relation, Sheet, Simple};
use skimp_reference::translate::without_limits;
use skimp_reference::Refusal;

use super::check_sheet;
use crate::read_back_call;

/// Holds the orders of a sheet over a limit to being refused for their header.
fn refused(compared: &mut Compared, name: &str, sheet: &Sheet) {
    let outcome = compared.check(name, without_limits(sheet).text().as_bytes());
    let refusal = Refusal {
        number: 21,
        place: 0,
    };
    assert_eq!(outcome, Err(refusal), "{name}: {}", sheet.text());
}

#[test]
fn random_sheets() {
    let name = "limits, seed 23";
    let mut random = Random(23);
    let mut compared = Compared::new(READ_BACK, read_back_call);
    let mut census = Census::default();
    for one in [false, true] {
        for _ in 0..25 {
            for within in [
                [128, 32, 2048],
                // one below each limit
                [127, 32, 2048],
                [128, 31, 2048],
                [128, 32, 2047],
                // half of two of them, and one more
                [64, 32, 1024],
                [65, 32, 1025],
            ] {
                let sheet = Plan::exact_sheet(&mut random, within, one);
                let translation = check_sheet(&mut compared, name, &sheet);
                census.add(&sheet, &translation);
            }
            for over in [
                [129, 32, 2048],
                [128, 33, 2048],
                [128, 32, 2049],
                // over one limit, far from the others
                [129, 0, 20],
                [0, 33, 200],
                [0, 0, 2049],
            ] {
                let sheet = Plan::exact_sheet(&mut random, over, one);
                refused(&mut compared, name, &sheet);
            }
        }
    }
    assert_eq!(census.with_variables(128), 150, "{name}");
    assert_eq!(census.with_temporaries(32), 250, "{name}");
    assert_eq!(census.with_orders(2048), 150, "{name}");
    assert!(census.with_instructions(1) >= 5, "{name}");
}

/// The most and the least instructions, and every word and the longest constants.
#[test]
fn plain_sheets() {
    let mut compared = Compared::new(READ_BACK, read_back_call);
    let sheet = |variables, lines| Sheet { variables, lines };
    let jumps = |count: u32| {
        let jump = |number| Line::Simple(Simple::Goto(count + 1 - number));
        (0..count).map(jump).collect::<Vec<_>>()
    };
    for variables in [0, 63, 64, 65, 127, 128] {
        let none = sheet(variables, Vec::new());
        check_sheet(&mut compared, "no instruction", &none);
        for count in [1022, 1023, 1024, 2046, 2047] {
            let most = sheet(variables, jumps(count));
            check_sheet(&mut compared, "jumps", &most);
        }
        let over = sheet(variables, jumps(2048));
        refused(&mut compared, "2,048 jumps", &over);
    }
    let over = sheet(129, Vec::new());
    refused(&mut compared, "129 variables, none named", &over);
    for constant in [0, 9, 10, 999_999_999, 1_000_000_000, 2_147_483_647] {
        let value = Expression::Constant(constant);
        let send = Line::Simple(Simple::Send(value));
        check_sheet(&mut compared, "a constant", &sheet(0, vec![send]));
    }
    for word in 2..=129 {
        let set = Line::Simple(Simple::Set(word, Expression::Word(131 - word)));
        check_sheet(&mut compared, "a word", &sheet(128, vec![set]));
    }
}

/// IFs in each other, with and without second parts: sixteen are a sheet, seventeen are none.
#[test]
fn levels() {
    let mut compared = Compared::new(READ_BACK, read_back_call);
    let zero = || Expression::Constant(0);
    let condition = Condition::comparison(Relation::Equal, zero(), zero());
    let condition = Line::If(condition);
    let goto = || Line::Simple(Simple::Goto(1));
    for levels in 1..=18 {
        for has_else in [false, true] {
            let mut lines = vec![condition.clone(); levels];
            lines.push(goto());
            for _ in 0..levels {
                if has_else {
                    lines.extend([Line::Else, goto()]);
                }
                lines.push(Line::Finish);
            }
            let sheet = Sheet {
                variables: 0,
                lines,
            };
            let text = without_limits(&sheet).text();
            let outcome = compared.check("levels", text.as_bytes());
            let refusal = Refusal {
                number: 31,
                place: 0,
            };
            let expected = if levels <= 16 { Ok(()) } else { Err(refusal) };
            assert_eq!(outcome, expected, "{levels} levels");
        }
    }
}

/// Comparisons of one IF, in runs of every kind: sixteen are a sheet's, seventeen are not.
#[test]
fn comparisons() {
    let name = "comparisons, seed 74";
    let mut random = Random(74);
    let mut compared = Compared::new(READ_BACK, read_back_call);
    for count in 2..=19 {
        for turn in 0..40 {
            let word = [Joining::And, Joining::Or][turn % 2];
            let condition = match turn {
                // one run of all
                0 | 1 => Condition::Run(word, (0..count).map(Condition::Comparison).collect()),
                _ => joined(&mut random, word, &mut (0..count), count),
            };
            let condition = condition.map(&mut |number| Comparison {
                relation: Relation::Less,
                left: Expression::Word(2),
                right: Expression::Constant(*number as u32),
            });
            let sheet = Sheet {
                variables: 1,
                lines: vec![
                    Line::If(condition),
                    Line::Simple(Simple::Goto(1)),
                    Line::Finish,
                ],
            };
            if count <= 16 {
                check_sheet(&mut compared, name, &sheet);
                continue;
            }
            let text = without_limits(&sheet).text();
            let refusal = Refusal {
                number: 31,
                place: 0,
            };
            let outcome = compared.check(name, text.as_bytes());
            assert_eq!(outcome, Err(refusal), "{}", sheet.text());
        }
    }
}
