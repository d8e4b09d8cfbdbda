//! Names that are declared in any order and used in any other, and names that are not declared.

use skimp_reference::random::Random;
use skimp_reference::writing::spelling::length;
use skimp_reference::writing::token::Token;

use super::alike::{alike, declarations, like, of_length, put_in_order, send, set, uses, WAYS};
use super::{fitting, Tries, MOST_CELLS, MOST_DECLARED, MOST_VARIABLES};

#[test]
fn declared_and_used() {
    let mut tries = Tries::new(61);
    for letters in 1..=MOST_DECLARED {
        for round in 0..12 {
            let random = &mut tries.random;
            let most = fitting(letters + 2);
            let least = if round < 4 { most } else { 1 };
            let count = random.between(least, most);
            let mut names = alike(random, count, letters);
            put_in_order(random, &mut names);
            let mut statements = declarations(&names, random.pick(&[1, 2, 7, MOST_VARIABLES]));
            let declared = statements.len();
            statements.extend(uses(random, &names));
            // in any statement behind the declarations
            let place = random.between(declared, statements.len());
            let mut refused = statements.clone();
            refused.insert(place, missing(random, &names));
            tries.spell("used", &statements, Ok(()));
            tries.spell("undeclared", &refused, Err((8, place as u32 + 2)));
        }
    }
    tries.end(&[("used", 0, 2_900), ("undeclared", 8, 2_900)]);
}

/// A statement that uses a name like some that is none of them. It may be SEND, or too long to be
/// declared.
fn missing(random: &mut Random, names: &[String]) -> Vec<Token> {
    let name = loop {
        let other = &names[random.below(names.len())];
        let way = random.pick(&WAYS);
        match like(random, other, way) {
            Some(name) if !names.contains(&name) => break Token::Name(name),
            _ => {}
        }
    };
    let sent = send(name.clone());
    match length(&sent) <= MOST_CELLS && random.once_in(2) {
        true => sent,
        false => set(name, Token::Decimal(1)),
    }
}

/// Names of as many letters as a statement takes, alone and assigned. The archive looks names up
/// before it finds the form, so also those that are too long to be declared or to have a value.
#[test]
fn every_length() {
    let mut tries = Tries::new(62);
    for letters in 1..=MOST_CELLS {
        let mut names = of_length(&mut tries.random, 3, letters);
        let name = names.pop().map(Token::Name).expect("a name");
        names.retain(|name| name.len() <= MOST_DECLARED);
        let lists = declarations(&names, 1);
        let place = lists.len() as u32 + 2;
        let alone = vec![name.clone()];
        let assigned = set(name, Token::Decimal(1));
        let number = if letters <= 253 { 8 } else { 4 };
        tries.spell("alone", &[&lists[..], &[alone]].concat(), Err((7, place)));
        let assigned = [&lists[..], &[assigned]].concat();
        tries.spell("assigned", &assigned, Err((number, place)));
    }
    tries.end(&[("alone", 7, 255), ("assigned", 8, 253), ("assigned", 4, 2)]);
}

/// "SEND cannot be declared or used as a variable", and no other name is like it.
#[test]
fn send_and_its_like() {
    let names = "SENDX XSEND SEN END SENDSEND SEND0 S D SD SENE TEND SAND SENDSEN NSEND DEND";
    let names: Vec<String> = names.split(' ').map(String::from).collect();
    let token = |name: &str| Token::Name(name.to_string());
    let mut tries = Tries::new(63);
    for longest in [1, 4, 20] {
        let lists = declarations(&names, longest);
        let place = lists.len() as u32 + 2;
        let used = uses(&mut tries.random, &names);
        tries.spell("used", &[&lists[..], &used].concat(), Ok(()));
        for name in &names {
            let mut called = send(token(name));
            tries.spell("sent", &[&lists[..], &[called.clone()]].concat(), Ok(()));
            called[0] = token(name);
            let called = [&lists[..], &[called]].concat();
            tries.spell("called", &called, Err((7, place)));
            let as_value = [&lists[..], &[set(token(name), token("SEND"))]].concat();
            tries.spell("as a value", &as_value, Err((8, place)));
        }
        let assigned = [&lists[..], &[set(token("SEND"), token("SEN"))]].concat();
        tries.spell("assigned", &assigned, Err((8, place)));
        for declared in 0..=names.len() {
            let mut names = names.clone();
            names.insert(declared, "SEND".to_string());
            let place = (declared / longest) as u32 + 2;
            let lists = declarations(&names, longest);
            tries.spell("declared", &lists, Err((8, place)));
        }
    }
    tries.end(&[("used", 0, 3), ("as a value", 8, 45), ("declared", 8, 48)]);
}
