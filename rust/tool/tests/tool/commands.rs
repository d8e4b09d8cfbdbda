//! check, compile, readback, help and the arguments.

use crate::session::{done, said, Session};

const SOURCE: &str = "%BEGIN\n%INTEGER A\nA = 6 - (3 - 1)\nSEND(A * 7)\n%ENDOFPROGRAM\n";
const OBJECT: &str = "BOX\t1\t2\t12\nLOAD\tK\t6\nSTR\tD\t3\nLOAD\tK\t3\nSUB\tK\t1\nSTR\tD\t4\n\
                      LOAD\tD\t3\nSUB\tD\t4\nSTR\tD\t2\nLOAD\tD\t2\nMLT\tK\t7\nSEND\t-\t0\nSTOP\t-\t0\n";
const SHEET: &str = "SHEET\t1\t2\nSET\t2\t-\tK6\t-\tK3\tK1\nSEND\t*\tW2\tK7\n";

fn session() -> Session {
    let session = Session::new();
    session.put("a.skimp", SOURCE);
    session.put("a.box", OBJECT);
    session
}

#[test]
fn check() {
    let session = session();
    let accepted = "accepted, 1 variable, 2 temporaries, 12 orders, object of 113 bytes\n";
    let ran = session.skimp(&["check", "a.skimp"]);
    assert_eq!(ran, done(&format!("a.skimp: {accepted}")));
    let ran = session.skimp_with(&["check", "-"], SOURCE.as_bytes());
    assert_eq!(ran, done(&format!("-: {accepted}")));
    let ran = session.skimp_with(&["check", "-"], b"%BEGIN;%ENDOFPROGRAM");
    assert_eq!(
        ran,
        done("-: accepted, 0 variables, 0 temporaries, 1 order, object of 19 bytes\n")
    );
    assert_eq!(session.names(), ["a.box", "a.skimp"]);
}

#[test]
fn texts() {
    let session = session();
    assert_eq!(session.skimp(&["compile", "a.skimp"]), done(OBJECT));
    assert_eq!(
        session.skimp(&["compile", "a.skimp", "-o", "-"]),
        done(OBJECT)
    );
    assert_eq!(session.skimp(&["readback", "a.box"]), done(SHEET));
    let ran = session.skimp_with(&["readback", "-"], OBJECT.as_bytes());
    assert_eq!(ran, done(SHEET));
    assert_eq!(
        session.skimp(&["compile", "-o", "b.box", "a.skimp"]),
        done("")
    );
    assert_eq!(session.get("b.box"), OBJECT.as_bytes());
    assert_eq!(
        session.skimp(&["readback", "b.box", "-o", "b.sheet"]),
        done("")
    );
    assert_eq!(session.get("b.sheet"), SHEET.as_bytes());
    assert_eq!(session.names(), ["a.box", "a.skimp", "b.box", "b.sheet"]);
}

/// A buffer of just the text's length is enough, and one byte less is not.
#[test]
fn rooms() {
    let session = session();
    for (arguments, length, number, words) in [
        (
            ["compile", "a.skimp"],
            OBJECT.len(),
            12,
            "object buffer too short, all else well",
        ),
        (
            ["readback", "a.box"],
            SHEET.len(),
            32,
            "sheet buffer too short",
        ),
    ] {
        let [command, file] = arguments;
        let room = |room: usize| {
            let room = room.to_string();
            session.skimp(&[command, file, "--room", &room])
        };
        assert_eq!(room(length), session.skimp(&arguments));
        assert_eq!(room(4_294_967_295), session.skimp(&arguments));
        let refusal = said(1, &format!("{file}: {words} [{number}]"));
        assert_eq!(room(length - 1), refusal);
        assert_eq!(room(0), refusal);
        // an output file stays away
        session.skimp(&[command, file, "--room=3", "-o", "none"]);
        assert!(!session.path("none").exists());
    }
}

#[test]
fn help() {
    let session = Session::new();
    let all = session.skimp(&["help"]);
    assert_eq!(all.status, Some(0));
    assert_eq!(session.skimp(&["--help"]), all);
    assert_eq!(session.skimp(&["-h"]), all);
    for command in ["check", "compile", "readback", "run", "compare", "help"] {
        let ran = session.skimp(&["help", command]);
        assert_eq!((ran.status, ran.err.as_str()), (Some(0), ""));
        let usage = format!("usage: skimp {command}");
        assert!(ran.out.starts_with(&usage), "{}", ran.out);
        assert_eq!(session.skimp(&[command, "--help"]), ran);
        // the line that the whole help has of it
        let line = ran
            .out
            .lines()
            .next()
            .expect("a line")
            .trim_start_matches("usage: ");
        assert!(all.out.contains(line), "{line}");
    }
    assert_eq!(
        session.skimp(&["--version"]),
        done(concat!("skimp ", env!("CARGO_PKG_VERSION"), "\n"))
    );
}

/// Every option that the help has stands in the manual page, and no other.
#[test]
fn manual_page() {
    let session = Session::new();
    let page = include_str!("../../../../docs/skimp.1").replace("\\-", "-");
    let page = page.replace("\\fB", "").replace("\\fR", " ");
    let options = |text: &str| {
        let word = |c: char| !c.is_ascii_alphabetic() && c != '-';
        let mut options: Vec<_> = text.split(word).filter(|it| it.starts_with('-')).collect();
        options.retain(|it| !it.trim_matches('-').is_empty());
        options.sort_unstable();
        options.dedup();
        options.into_iter().map(str::to_string).collect::<Vec<_>>()
    };
    let mut help = session.skimp(&["help"]).out;
    for command in ["check", "compile", "readback", "run", "compare", "help"] {
        help += &session.skimp(&["help", command]).out;
        assert!(page.contains(&format!(".SS {command}\n")), "{command}");
    }
    assert_eq!(options(&page), options(&help));
}

/// Arguments, and how the message begins.
const BAD_ARGUMENTS: [(&[&str], &str); 20] = [
    (
        &["chekc", "a.skimp"],
        "chekc is no command\nusage: skimp check SOURCE",
    ),
    (&[], "no command\nusage: skimp check SOURCE"),
    (&["check"], "check takes one SOURCE; see skimp help check"),
    (
        &["check", "a.skimp", "a.skimp"],
        "check takes one SOURCE; see skimp help check",
    ),
    (
        &["compare", "a.skimp"],
        "compare takes a SOURCE and an OBJECT; see skimp help compare",
    ),
    (
        &["compare", "-", "-"],
        "only one of the two can be standard input",
    ),
    (&["help", "me"], "me is no command"),
    (
        &["check", "-o", "b", "a.skimp"],
        "check does not take -o; see skimp help check",
    ),
    (&["run", "a.box", "--room"], "--room wants a value"),
    (&["run", "a.box", "--trace=1"], "--trace takes no value"),
    (
        &["run", "a.box", "--steps", "1", "--steps=2"],
        "--steps is given twice",
    ),
    (
        &["run", "a.box", "--steps", "-1"],
        "--steps wants a number from 0 to 4294967295, not -1",
    ),
    (
        &["run", "a.box", "--steps", "+1"],
        "--steps wants a number from 0 to 4294967295, not +1",
    ),
    (
        &["run", "a.box", "--steps="],
        "--steps wants a number from 0 to 4294967295, not ",
    ),
    (
        &["run", "a.box", "--steps", "4294967296"],
        "--steps wants a number from 0 to 4294967295, not 4294967296",
    ),
    (
        &["run", "a.box", "--room", "16777217"],
        "--room wants a number from 0 to 16777216, not 16777217",
    ),
    (&["run", "a.box", "--state", "-"], "--state wants a file"),
    (
        &["compile", "a.skimp", "-o", "./a.skimp"],
        "./a.skimp is read, so it cannot be written to",
    ),
    (
        &["check", "none.skimp"],
        "none.skimp: No such file or directory (os error 2)",
    ),
    (&["check", "."], ".: Is a directory (os error 21)"),
];

#[test]
fn bad_arguments() {
    let session = session();
    for (arguments, words) in BAD_ARGUMENTS {
        let ran = session.skimp(arguments);
        assert_eq!(ran.status, Some(2), "{arguments:?}");
        assert_eq!(ran.out, "", "{arguments:?}");
        let start = format!("skimp: {words}\n");
        assert!(ran.err.starts_with(&start), "{arguments:?}: {}", ran.err);
    }
}

/// A file whose name begins with `-` stands behind `--`.
#[test]
fn names_behind_dashes() {
    let session = session();
    session.put("-x", SOURCE);
    assert_eq!(session.skimp(&["compile", "--", "-x"]), done(OBJECT));
    assert_eq!(session.skimp(&["compile", "-x"]).status, Some(2));
}
