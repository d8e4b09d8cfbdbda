//! Names that have nearly as many letters together as a source may have bytes. Each source has the
//! most bytes.

use skimp_reference::limits::MOST_SOURCE;

use super::alike::{mix, of_length, put_in_order};
use super::{Tries, MOST_DECLARED, MOST_VARIABLES};

const BEGIN: &str = "%BEGIN\n";
const DECLARE: &str = "%INTEGER ";
const END: &str = "%ENDOFPROGRAM";
/// The bytes between the first and the last statement.
const ROOM: usize = MOST_SOURCE - BEGIN.len() - END.len();

/// The source of statements, with spaces before its end.
fn filled(statements: &str) -> Vec<u8> {
    assert!(statements.len() <= ROOM);
    let source = format!("{BEGIN}{statements:ROOM$}{END}");
    assert_eq!(source.len(), MOST_SOURCE);
    source.into_bytes()
}

/// A statement for each name.
fn lines(before: &str, names: &[String], after: &str) -> String {
    let line = |name| format!("{before}{name}{after}\n");
    names.iter().map(line).collect()
}

/// The most letters of each name where so many are declared and so many sent.
fn most_letters(declared: usize, sent: usize) -> usize {
    let around = declared * "%INTEGER \n".len() + sent * "SEND()\n".len();
    MOST_DECLARED.min((ROOM - around) / (declared + sent))
}

/// One below the most, at it and one above it, and about half of it, with no send up to one for each
/// name; of the larger every second number of sends.
#[test]
fn declared_and_sent() {
    let mut tries = Tries::new(66);
    for count in [63, 64, 65, 127, 128, 129] {
        for sent in (0..=count).step_by(1 + count / 100) {
            hold_sent(&mut tries, count, sent);
        }
    }
    tries.end(&[
        ("once", 0, 300),
        ("once", 11, 65),
        ("twice", 8, 380),
        ("undeclared", 8, 310),
    ]);
}

/// Declares so many names of as many letters as fit, and sends so many of them: as it should be, with
/// one that is declared twice, and with one that is not declared.
fn hold_sent(tries: &mut Tries, count: usize, sent: usize) {
    let random = &mut tries.random;
    let mut names = of_length(random, count + 1, most_letters(count, sent));
    let other = names.pop().expect("a name");
    put_in_order(random, &mut names);
    let mut again = names.clone();
    again[count - 1] = names[random.below(count - 1)].clone();
    let [lists, again] = [&names, &again].map(|names| lines(DECLARE, names, ""));
    mix(random, &mut names);
    names.truncate(sent);
    // the last of those that are declared by themselves
    let place = count as u32 + 1;
    let over = (count > MOST_VARIABLES).then_some((11, place));
    let sends = lines("SEND(", &names, ")");
    let expected = over.map_or(Ok(()), Err);
    tries.hold("once", &filled(&format!("{lists}{sends}")), expected);
    tries.hold("twice", &filled(&(again + &sends)), Err((8, place)));
    if let Some(last) = names.last_mut() {
        *last = other;
        let refusal = over.unwrap_or((8, place + sent as u32));
        let sends = lines("SEND(", &names, ")");
        tries.hold("undeclared", &filled(&(lists + &sends)), Err(refusal));
    }
}

/// Names of the most letters, as many as fit, and what fits behind them: 110 bytes, or 123 without
/// an end.
#[test]
fn most_letters_of_all() {
    let mut tries = Tries::new(67);
    for _ in 0..40 {
        let mut names = of_length(&mut tries.random, 63, MOST_DECLARED);
        put_in_order(&mut tries.random, &mut names);
        let lists = lines(DECLARE, &names, "");
        let [last, used] = [100, 46].map(|letters| "N".repeat(letters));
        let part = &used[1..];
        let ends = [
            ("the 64th", last.clone(), Ok(())),
            ("its use", format!("{used}\nSEND({used})"), Ok(())),
            ("like it", format!("{used}\nM{part}=1"), Err((8, 66))),
            ("a part", format!("{used}\n{part}=1"), Err((8, 66))),
            ("the 65th", format!("A,{}", &last[2..]), Ok(())),
            ("twice", format!("{used},{used}"), Err((8, 65))),
        ];
        for (kind, end, expected) in ends {
            let source = filled(&format!("{lists}{DECLARE}{end}\n"));
            tries.hold(kind, &source, expected);
        }
        let open = format!("{BEGIN}{lists}{DECLARE}{last}{}", "9".repeat(14));
        assert_eq!(open.len(), MOST_SOURCE);
        tries.hold("no end", open.as_bytes(), Err((10, 65)));
    }
    tries.end(&[("its use", 0, 40), ("the 65th", 0, 40), ("no end", 10, 40)]);
}

/// One name less than there may be, of as many letters as leave some bytes, and what fits there.
#[test]
fn most_names_of_all() {
    let mut tries = Tries::new(68);
    let before = MOST_VARIABLES - 1;
    let letters = (ROOM - 300) / before - DECLARE.len() - 1;
    for _ in 0..40 {
        let mut names = of_length(&mut tries.random, before, letters);
        put_in_order(&mut tries.random, &mut names);
        let lists = lines(DECLARE, &names, "");
        let used = "N".repeat(100);
        let (part, far) = (&used[1..], tries.random.below(before));
        let far = &names[far];
        let ends = [
            ("the 128th", used.clone(), Ok(())),
            ("its use", format!("{used}\nSEND({used})"), Ok(())),
            ("like it", format!("{used}\nM{part}=1"), Err((8, 130))),
            ("the 129th", format!("A,{used}"), Err((11, 129))),
            ("the 129th", format!("{used}\n{DECLARE}A"), Err((11, 130))),
            ("twice", format!("{used},{used}"), Err((8, 129))),
            ("twice", format!("A,B,{far}"), Err((8, 129))),
            ("twice", format!("A\n{DECLARE}B,C,{far}"), Err((8, 130))),
        ];
        for (kind, end, expected) in ends {
            let source = filled(&format!("{lists}{DECLARE}{end}\n"));
            tries.hold(kind, &source, expected);
        }
    }
    tries.end(&[("its use", 0, 40), ("the 129th", 11, 80), ("twice", 8, 120)]);
}
