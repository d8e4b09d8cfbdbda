//! Every condition of up to five comparisons, with every answer of these.

use skimp_reference::agree::{Compared, COMPILE, READ_BACK};
use skimp_reference::condition::Condition;
use skimp_reference::generate::conditions::every_condition;
use skimp_reference::runs::Runs;
use skimp_reference::sheet::{Expression, Line, Operator, Sheet, Simple};
use skimp_reference::translate::translate;
use skimp_reference::writing::joined::{plain_text, text};

use super::{declared, of_variables, send, sheet, texts};
use crate::{compile_call, read_back_call, run_call};

/// How many conditions there are of so many comparisons, from 0.
const CONDITIONS: [usize; 6] = [0, 1, 2, 6, 22, 90];

/// The source of a program that sends 1 or 2.
fn source(condition: &str, count: usize) -> Vec<u8> {
    let statement = format!("%IF {condition} %THEN SEND(1) %ELSE SEND(2)");
    format!("%BEGIN\n{}{statement}\n%ENDOFPROGRAM\n", declared(count)).into_bytes()
}

/// Objects and sheets, with and without brackets that are not needed: each of those that `text` may
/// put, and all of them.
#[test]
fn texts_of_all() {
    let mut compile = Compared::new(COMPILE, compile_call);
    let mut read_back = Compared::new(READ_BACK, read_back_call);
    let (mut object, mut other) = (vec![0; 1000], vec![0; 1000]);
    let mut buffer = vec![0; skimp::SHEET_MOST];
    let mut brackets = 0;
    for (count, number) in CONDITIONS.into_iter().enumerate().skip(1) {
        let conditions = every_condition(0, count);
        assert_eq!(conditions.len(), number);
        for condition in conditions {
            let plain = source(&plain_text(&texts(&condition)), count);
            assert_eq!(compile.check("every condition", &plain), Ok(()));
            let object = skimp::compile(&plain, &mut object).expect("it was accepted");
            assert_eq!(read_back.check("every condition", object), Ok(()));
            let lines = vec![
                Line::If(of_variables(&condition)),
                send(1),
                Line::Else,
                send(2),
                Line::Finish,
            ];
            let sheet = sheet(count, lines);
            let text = skimp::read_back(object, &mut buffer).expect("it was accepted");
            assert_eq!(text, sheet.text().as_bytes());
            for bracketed in bracketed(&texts(&condition)) {
                let bracketed = source(&bracketed, count);
                assert_eq!(skimp::compile(&bracketed, &mut other), Ok(object));
                brackets += 1;
            }
        }
    }
    assert!(brackets >= 1000, "{brackets} with brackets");
}

/// The condition with each one of the brackets that it does not need, and with all of them.
fn bracketed(condition: &Condition<String>) -> Vec<String> {
    let mut places = 0;
    let all = text(condition, &mut || {
        places += 1;
        true
    });
    let one = |wanted: usize| {
        let mut place = 0;
        text(condition, &mut || {
            place += 1;
            place == wanted
        })
    };
    let mut texts: Vec<String> = (1..=places).map(one).collect();
    texts.push(all);
    texts
}

/// SETs that give the comparisons their answers, and an IF in the first part of another.
fn program(condition: Condition, answers: usize) -> Sheet {
    let count = condition.count();
    let set = |number: usize| {
        let answer = Expression::Constant((answers >> number & 1) as u32);
        Line::Simple(Simple::Set(2 + number as u32, answer))
    };
    let mut lines: Vec<Line> = (0..count).map(set).collect();
    let zero = || Expression::Constant(0);
    let holds = Condition::comparison(skimp_reference::sheet::Relation::Equal, zero(), zero());
    lines.extend([Line::If(holds), Line::If(condition), send(1), Line::Else]);
    lines.extend([send(2), Line::Finish, Line::Else, send(3), Line::Finish]);
    sheet(count, lines)
}

/// Runs follow the meaning, which tries the comparisons from left to right while the answer is open.
#[test]
fn runs_of_all() {
    let mut runs = Runs::default();
    for count in 1..=5 {
        for condition in every_condition(0, count) {
            for answers in 0..1 << count {
                let sheet = program(of_variables(&condition), answers);
                let translation = translate(&sheet).expect("within the limits");
                runs.hold("every answer", &sheet, &translation, 1, run_call);
            }
        }
    }
    assert_eq!(runs.programs, 2 + 2 * 4 + 6 * 8 + 22 * 16 + 90 * 32);
    assert_eq!(runs.endings[20], runs.programs);
}

/// The same with a division by zero in each comparison, which is met only where that is tried.
#[test]
fn faults_of_all() {
    let mut runs = Runs::default();
    for count in 1..=4 {
        for condition in every_condition(0, count) {
            for answers in 0..1 << count {
                for faulting in 0..count {
                    let mut condition = of_variables(&condition);
                    let [one, zero] = [1, 0].map(|number| Box::new(Expression::Constant(number)));
                    let quotient = Expression::Binary(Operator::Div, one, zero);
                    condition.comparisons_mut()[faulting].left = quotient;
                    let sheet = program(condition, answers);
                    let translation = translate(&sheet).expect("within the limits");
                    runs.hold("every fault", &sheet, &translation, 1, run_call);
                }
            }
        }
    }
    assert!(runs.endings[1] >= 500, "{} faults", runs.endings[1]);
    assert!(runs.endings[20] >= 500, "{} stops", runs.endings[20]);
}
