//! Which comparisons are tried, in which order, and what is counted: every condition of up to five
//! comparisons with every answer of these, and with a fault in each of them.

use skimp_reference::condition::{Condition, Joining};
use skimp_reference::generate::conditions::every_condition;
use skimp_reference::interpret::{Ending, Meaning};
use skimp_reference::runs::Runs;
use skimp_reference::sheet::{Expression, Line, Operator, Sheet};
use skimp_reference::translate::translate;
use skimp_reference::untranslate::untranslate;

use super::{of_variables, send, set, sheet, CONDITIONS, ORDERS};

/// The answer of a condition of which every comparison has one.
fn answer(condition: &Condition<usize>, answers: &[bool]) -> bool {
    match condition {
        Condition::Comparison(number) => answers[*number],
        Condition::Run(Joining::And, members) => members.iter().all(|it| answer(it, answers)),
        Condition::Run(Joining::Or, members) => members.iter().any(|it| answer(it, answers)),
    }
}

/// Every list of so many answers.
fn every_answer(count: usize) -> impl Iterator<Item = Vec<bool>> {
    (0..1_usize << count).map(move |bits| (0..count).map(|place| bits >> place & 1 == 1).collect())
}

/// The comparisons that are tried: from left to right those whose answer is open, which means that the
/// condition's may still depend on it, whatever the others that were not tried have for theirs.
fn tried(condition: &Condition<usize>, answers: &[bool]) -> Vec<usize> {
    let mut tried = Vec::new();
    for number in 0..answers.len() {
        let depends = every_answer(answers.len()).any(|mut others| {
            for &known in &tried {
                others[known] = answers[known];
            }
            let mut turned = others.clone();
            turned[number] = !turned[number];
            answer(condition, &others) != answer(condition, &turned)
        });
        if depends {
            tried.push(number);
        }
    }
    tried
}

/// Variables with the answers, and behind them an IF that sends 1 or 2.
fn program(condition: Condition, answers: &[bool], has_else: bool) -> Sheet {
    let answers = answers.iter().enumerate();
    let set = |(number, answer): (usize, &bool)| set(2 + number as u32, u32::from(*answer));
    let mut lines: Vec<Line> = answers.map(set).collect();
    let variables = lines.len();
    lines.extend([Line::If(condition), send(1)]);
    if has_else {
        lines.extend([Line::Else, send(2)]);
    }
    lines.push(Line::Finish);
    sheet(variables, lines)
}

/// No path below has so many orders.
const MOST_STEPS: usize = 100;

/// The orders that the machine carries out or faults at, by their places, up to its end.
fn path(sheet: &Sheet) -> (Vec<usize>, u32) {
    let translation = translate(sheet).expect("within the limits");
    let object = translation.text().into_bytes();
    let words = 2 + translation.variables + translation.temporaries;
    let mut state = vec![0; 20 + 4 * words as usize];
    let mut path = Vec::new();
    while path.len() < MOST_STEPS {
        let next = state[4..8].try_into().expect("four bytes");
        path.push(u32::from_be_bytes(next) as usize);
        let reply = skimp_reference::run(&object, &mut state, &mut [0; 4], 1);
        if reply.number != 0 {
            // a fault is met behind the step before it, unless it is the first
            let next = state[4..8].try_into().expect("four bytes");
            let last = u32::from_be_bytes(next) as usize;
            if path.last() != Some(&last) {
                path.push(last);
            }
            return (path, reply.number);
        }
    }
    panic!("no end: {path:?}\n{}", sheet.text());
}

/// The path of a program that sends, by document 01's rules for each form: a SET has two orders, and
/// so has a SEND.
fn expected(condition: &Condition<usize>, answers: &[bool], has_else: bool) -> Vec<usize> {
    let count = answers.len();
    let cond = usize::from(count > 1);
    let first = 2 * count + cond;
    let part = first + ORDERS * count;
    let mut path: Vec<usize> = (0..first).collect();
    for number in tried(condition, answers) {
        path.extend(first + ORDERS * number..first + ORDERS * (number + 1));
    }
    let past = part + 2 + usize::from(has_else);
    let (then, otherwise) = ([part, part + 1], [past, past + 1]);
    let stop = past + 2 * usize::from(has_else);
    match (answer(condition, answers), has_else) {
        (true, false) => path.extend(then),
        (true, true) => path.extend([part, part + 1, part + 2]),
        (false, true) => path.extend(otherwise),
        (false, false) => {}
    }
    path.push(stop);
    path
}

#[test]
fn every_path() {
    for (count, number) in CONDITIONS.into_iter().enumerate().take(6).skip(1) {
        let conditions = every_condition(0, count);
        assert_eq!(conditions.len(), number);
        for condition in &conditions {
            assert!(condition.is_merged(), "{condition:?}");
            for answers in every_answer(count) {
                for has_else in [false, true] {
                    let sheet = program(of_variables(condition), &answers, has_else);
                    let expected = expected(condition, &answers, has_else);
                    assert_eq!(path(&sheet), (expected, 20), "{}", sheet.text());
                }
            }
        }
    }
}

/// The meaning counts the same, and its runs follow it; and each is read back.
#[test]
fn every_meaning() {
    let mut runs = Runs::default();
    for count in 1..=5 {
        for condition in every_condition(0, count) {
            for answers in every_answer(count) {
                let sheet = program(of_variables(&condition), &answers, true);
                let mut meaning = Meaning::new(&sheet, 1);
                (0..count + 1).for_each(|_| meaning.advance());
                // two orders of each SET, COND, and three of each comparison that is tried
                let tried = tried(&condition, &answers).len();
                let counted = 2 * count + usize::from(count > 1) + ORDERS * tried;
                assert_eq!(meaning.count, counted as u64, "{}", sheet.text());
                meaning.advance();
                let sends = if answer(&condition, &answers) { 1 } else { 2 };
                assert_eq!(meaning.sent, [sends], "{}", sheet.text());
                let translation = translate(&sheet).expect("within the limits");
                assert_eq!(untranslate(&translation).as_ref(), Some(&sheet));
                runs.hold("meanings", &sheet, &translation, 1, run);
            }
        }
    }
    assert_eq!(runs.programs, 2 + 2 * 4 + 6 * 8 + 22 * 16 + 90 * 32);
}

fn run(object: &[u8], state: &mut [u8], output: &mut [u8], budget: u32) -> (u32, u32) {
    let reply = skimp_reference::run(object, state, output, budget);
    (reply.number, reply.value)
}

/// One comparison divides by zero. Where it is tried, that is the fault, and all before it counts;
/// where it is not, nothing happens.
#[test]
fn every_fault() {
    let mut runs = Runs::default();
    for count in 1..=4 {
        for condition in every_condition(0, count) {
            for answers in every_answer(count) {
                for faulting in 0..count {
                    let sheet = with_fault(&condition, &answers, faulting);
                    let tried = tried(&condition, &answers);
                    let before = tried.iter().position(|&number| number == faulting);
                    let mut meaning = Meaning::new(&sheet, 1);
                    (0..count + 1).for_each(|_| meaning.advance());
                    let first = 2 * count + usize::from(count > 1);
                    let (counted, ending) = match before {
                        // the LOAD before the DIV
                        Some(before) => (ORDERS * before + 1, Some(Ending::ZeroDivisor)),
                        None => (ORDERS * tried.len(), None),
                    };
                    let expected = (first as u64 + counted as u64, ending);
                    let text = sheet.text();
                    assert_eq!((meaning.count, meaning.ending), expected, "{text}");
                    if before.is_some() {
                        let at = first + ORDERS * faulting + 1;
                        let (path, number) = path(&sheet);
                        assert_eq!((path.last(), number), (Some(&at), 1), "{text}");
                    }
                    let translation = translate(&sheet).expect("within the limits");
                    runs.hold("faults", &sheet, &translation, 1, run);
                }
            }
        }
    }
    assert!(runs.endings[1] >= 500, "{} faults", runs.endings[1]);
    assert!(runs.endings[20] >= 500, "{} stops", runs.endings[20]);
}

/// The program with a division by zero for the variable of one comparison.
fn with_fault(condition: &Condition<usize>, answers: &[bool], faulting: usize) -> Sheet {
    let mut condition = of_variables(condition);
    let [one, zero] = [1, 0].map(|number| Box::new(Expression::Constant(number)));
    let quotient = Expression::Binary(Operator::Div, one, zero);
    condition.comparisons_mut()[faulting].left = quotient;
    program(condition, answers, true)
}
