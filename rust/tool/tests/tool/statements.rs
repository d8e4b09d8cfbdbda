//! The statement that is shown is the one that was counted: by the archive, which is proved, and by
//! the reference, whose reading of bytes `statement` is close to.

use skimp_reference::random::Random;
use skimp_reference::source::cells::Statements;
use skimp_reference::writing;
use skimp_tool::statement;

/// The cells of the first statements of a source, up to the first that is refused.
fn cells(source: &[u8]) -> Vec<Result<Vec<u8>, u32>> {
    let mut statements = Statements::new(source);
    let mut all = Vec::new();
    while let Some(read) = statements.read() {
        all.push(read.map(<[u8]>::to_vec));
        if all.last().is_some_and(Result::is_err) {
            break;
        }
    }
    all
}

/// Each statement that is found has, by itself, the cells that the rules give it, and stands in its
/// line; behind the last none is found.
fn holds(source: &[u8]) -> usize {
    let all = cells(source);
    for (place, expected) in all.iter().enumerate() {
        let found = statement::find(source, place as u32 + 1).expect("a statement");
        let start = found.text.as_ptr() as usize - source.as_ptr() as usize;
        let end = start + found.text.len();
        // with the byte that ends it
        let mark = source[end..].iter().position(|&byte| byte != b' ');
        let ended = &source[start..mark.map_or(source.len(), |mark| end + mark + 1)];
        assert_eq!(cells(ended).first(), Some(expected), "{source:?}");
        let lines = source[..start]
            .iter()
            .filter(|&&byte| byte == b'\n')
            .count();
        assert_eq!(found.line, lines + 1, "{source:?}");
    }
    if all.iter().all(Result::is_ok) {
        let behind = statement::find(source, all.len() as u32 + 1);
        assert_eq!(behind, None, "{source:?}");
    }
    all.len()
}

#[test]
fn by_hand() {
    let find = |source: &'static str, number| {
        let found = statement::find(source.as_bytes(), number);
        found.map(|found| (found.line, std::str::from_utf8(found.text).expect("text")))
    };
    assert_eq!(find("", 1), None);
    assert_eq!(find(" ;\n! A;\n%;B", 1), Some((3, "B")));
    assert_eq!(find("A;B ; C", 2), Some((1, "B")));
    assert_eq!(find("A;! B;C\nD", 2), Some((1, "C")));
    assert_eq!(find("\n %C\n! A\n  B %C\n C\nD", 1), Some((4, "B %C\n C")));
    assert_eq!(find("';\n''", 1), Some((1, "';\n''")));
    assert_eq!(find("A%CC\n\nB;D", 1), Some((1, "A%CC\n\nB")));
    assert_eq!(find("A\n'B", 2), Some((2, "'B")));
    assert_eq!(find("A;B", 3), None);
}

#[test]
fn random() {
    let mut random = Random(20_261_116);
    let mut count = 0;
    for _ in 0..20_000 {
        let (_, source) = writing::source(&mut random);
        if source
            .iter()
            .all(|&byte| byte == b'\n' || (32..=126).contains(&byte))
        {
            count += holds(&source);
        }
    }
    assert!(count > 100_000, "{count} statements are too few");
}

/// How many statements the archive reads of an accepted source: each one, as it was found, gives
/// way to an unknown keyword, and the archive must refuse just that one. Those behind
/// `%ENDOFPROGRAM` are not read, so there it accepts.
fn counted_by_the_archive(source: &[u8]) -> u32 {
    let mut buffer = vec![0; skimp::OBJECT_MOST];
    let (mut number, mut refused) = (1, 0);
    while let Some(found) = statement::find(source, number) {
        let start = found.text.as_ptr() as usize - source.as_ptr() as usize;
        let behind = &source[start + found.text.len()..];
        let changed = [&source[..start], b"%X", behind].concat();
        match skimp::compile(&changed, &mut buffer) {
            Err(refusal) => {
                assert_eq!((refusal.number, refusal.place), (5, number), "{source:?}");
                assert_eq!(refused, number - 1, "{source:?}");
                refused = number;
            }
            Ok(_) => assert!(refused > 0, "{source:?}"),
        }
        number += 1;
    }
    refused
}

#[test]
fn by_the_archive() {
    let mut random = Random(20_261_117);
    let mut buffer = vec![0; skimp::OBJECT_MOST];
    let (mut sources, mut statements) = (0, 0);
    for _ in 0..6_000 {
        let (_, source) = writing::source(&mut random);
        // room for the change
        if source.len() + 2 <= skimp::SOURCE_MOST && skimp::compile(&source, &mut buffer).is_ok() {
            sources += 1;
            statements += counted_by_the_archive(&source);
        }
    }
    assert!(sources > 1_000, "{sources} sources are too few");
    assert!(statements > 10_000, "{statements} statements are too few");
}
