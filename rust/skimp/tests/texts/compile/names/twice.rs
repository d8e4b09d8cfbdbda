//! Names that are declared twice, and more of them than there may be.

use std::collections::BTreeSet;

use skimp_reference::random::Random;
use skimp_reference::writing::token::Token;

use super::alike::{alike, declarations, mix, of_length, put_in_order};
use super::{fitting, Expected, Tries, MOST_DECLARED, MOST_VARIABLES};

/// What document 01 settles for declarations, which stand from the second statement on: 8 comes
/// before 11 in a statement.
fn settled(lists: &[Vec<Token>]) -> Expected {
    let mut known = BTreeSet::from(["SEND"]);
    for (place, list) in (2..).zip(lists) {
        for token in list {
            match token {
                Token::Name(name) if !known.insert(name) => return Err((8, place)),
                _ => {}
            }
        }
        if known.len() > 1 + MOST_VARIABLES {
            return Err((11, place));
        }
    }
    Ok(())
}

#[test]
fn declared_twice() {
    let mut tries = Tries::new(64);
    for letters in 1..=MOST_DECLARED {
        // more of the short ones, since only these are many in one list
        for _ in 0..20 + 250 / letters {
            let random = &mut tries.random;
            let count = random.between(1, fitting(letters + 2));
            let mut names = alike(random, count, letters);
            put_in_order(random, &mut names);
            let second = random.between(1, count);
            let any = random.below(second);
            let name = names[random.pick(&[0, second / 2, second - 1, any])].clone();
            names.insert(second, name.clone());
            let lists = declarations(&names, random.pick(&[1, 3, MOST_VARIABLES + 1]));
            let expected = settled(&lists);
            let (_, place) = expected.expect_err("declared twice");
            let list = &lists[place as usize - 2];
            let name = Token::Name(name);
            let kind = match list.iter().filter(|&token| *token == name).count() {
                2 => "in one list",
                _ => "in two lists",
            };
            tries.spell(kind, &lists, expected);
        }
    }
    tries.end(&[("in one list", 8, 800), ("in two lists", 8, 4_500)]);
}

/// Names that are declared one by one, and one list of more names behind them.
#[test]
fn passing_the_most() {
    let mut tries = Tries::new(65);
    for before in 0..=MOST_VARIABLES {
        for _ in 0..30 {
            let random = &mut tries.random;
            let mut names = of_length(random, before + 65, 2);
            let mut list = of_length(random, 26, 1);
            list.extend(names.split_off(before));
            mix(random, &mut list);
            // up to all 91, which are as many different names as a statement takes
            let (left, any) = (MOST_VARIABLES - before, random.between(1, 91));
            list.truncate(random.pick(&[91, left / 2, left, left + 1, any]));
            put_in_order(random, &mut list);
            let lists = [declarations(&names, 1), declarations(&list, 91)].concat();
            tries.spell("once", &lists, settled(&lists));
            let (kind, lists) = with_second(&mut tries.random, &names, list);
            tries.spell(kind, &lists, settled(&lists));
        }
        let names = of_length(&mut tries.random, before, 2);
        // as many names as a statement takes, if they need not differ
        let same = vec!["A".to_string(); 124];
        let lists = [declarations(&names, 1), declarations(&same, 124)].concat();
        tries.spell("124 times", &lists, Err((8, before as u32 + 2)));
    }
    tries.end(&[
        ("once", 0, 1_000),
        ("once", 11, 1_000),
        ("twice", 8, 500),
        ("twice, before the 129th", 8, 500),
        ("twice, behind the 128th", 8, 900),
        ("twice, behind the 200th", 8, 50),
        ("124 times", 8, 129),
    ]);
}

/// The declarations of names, and behind them a list in which one of them, one of the list or SEND
/// stands once more, and where: the list may have more names than there may be.
fn with_second(
    random: &mut Random,
    names: &[String],
    mut list: Vec<String>,
) -> (&'static str, Vec<Vec<Token>>) {
    // so that any name fits
    list.truncate(89);
    let any = random.between(0, list.len());
    let place = random.pick(&[list.len(), any]);
    let mut known = [names, &list[..place]].concat();
    let last = known.len();
    let kind = match (last, names.len() + list.len()) {
        (200.., _) => "twice, behind the 200th",
        (MOST_VARIABLES.., _) => "twice, behind the 128th",
        (_, MOST_VARIABLES..) => "twice, before the 129th",
        _ => "twice",
    };
    known.push("SEND".to_string());
    let any = random.below(known.len());
    let first = random.pick(&[last, last.saturating_sub(1), last / 2, 0, any]);
    list.insert(place, known[first].clone());
    let lists = [declarations(names, 1), declarations(&list, 90)].concat();
    (kind, lists)
}
