//! The command killed between the steps in which it writes a file: the old file or the new one is
//! there, whole.

use crate::session::{done, ran, Ran, Session};
use std::os::unix::process::ExitStatusExt;
use std::path::PathBuf;
use std::process::Command;

const SIGKILL: i32 = 9;

/// Counts without end.
const SOURCE: &str = "%BEGIN\n%INTEGER N\n1: N = N + 1\nSEND(N)\n->1\n%ENDOFPROGRAM\n";
const SLICE: [&str; 6] = ["run", "a.box", "--steps", "12", "--state", "a.state"];

fn session() -> (Session, PathBuf) {
    let session = Session::new();
    session.put("cut.c", include_str!("cut.c"));
    let library = session.path("cut.so");
    let compiler = std::env::var("CC").unwrap_or("cc".to_string());
    let compiled = Command::new(compiler)
        .args(["-shared", "-fPIC", "-o", "cut.so", "cut.c"])
        .current_dir(&session.folder)
        .status();
    assert!(compiled.expect("a C compiler").success());
    session.put("a.skimp", SOURCE);
    assert_eq!(
        session.skimp(&["compile", "a.skimp", "-o", "a.box"]),
        done("")
    );
    (session, library)
}

/// Runs the command, which ends at a call.
fn cut(session: &Session, library: &PathBuf, arguments: &[&str], at: &str) {
    let mut command = session.command(arguments);
    let output = command
        .env("LD_PRELOAD", library)
        .env("CUT_AT", at)
        .output();
    let output = output.expect("its end");
    assert_eq!(
        output.status.signal(),
        Some(SIGKILL),
        "{at}: it was not cut"
    );
}

/// What a slice prints behind the numbers of the one before.
fn slice(session: &Session, sent: &str, next: &str, count: i32) {
    let Ran { status, out, err } = session.skimp(&SLICE);
    let told = format!(
        "sent: {sent}\nsteps: 12\nending: not ended, the steps are used up, at order {next}\nW2 = {count}\n"
    );
    assert_eq!((status, out, err), (Some(4), told, String::new()));
}

#[test]
fn state() {
    for (at, stored) in [("fsync 1", false), ("rename 1", false), ("fsync 2", true)] {
        let (session, library) = session();
        slice(&session, "1 2", "0, LOAD D 2", 2);
        let old = session.get("a.state");
        cut(&session, &library, &SLICE, at);
        assert_eq!(session.get("a.state") == old, !stored, "{at}");
        match stored {
            false => slice(&session, "3 4", "0, LOAD D 2", 4),
            true => slice(&session, "5 6", "0, LOAD D 2", 6),
        }
    }
}

/// The same without a state before: none is there, or the new one.
#[test]
fn first_state() {
    for (at, stored) in [("fsync 1", false), ("rename 1", false), ("fsync 2", true)] {
        let (session, library) = session();
        cut(&session, &library, &SLICE, at);
        assert_eq!(session.path("a.state").exists(), stored, "{at}");
        match stored {
            false => slice(&session, "1 2", "0, LOAD D 2", 2),
            true => slice(&session, "3 4", "0, LOAD D 2", 4),
        }
    }
}

#[test]
fn output() {
    let (session, library) = session();
    let object = session.get("a.box");
    session.put("b.skimp", "%BEGIN;%ENDOFPROGRAM");
    let compile = ["compile", "b.skimp", "-o", "a.box"];
    cut(&session, &library, &compile, "rename 1");
    assert_eq!(session.get("a.box"), object);
    cut(&session, &library, &compile, "fsync 2");
    assert_eq!(session.get("a.box"), b"BOX\t0\t0\t1\nSTOP\t-\t0\n");
}

/// With the library loaded and no call named, the command does what it does.
#[test]
fn uncut() {
    let (session, library) = session();
    let output = session.command(&SLICE).env("LD_PRELOAD", library).output();
    assert_eq!(ran(output.expect("its end")).status, Some(4));
    slice(&session, "3 4", "0, LOAD D 2", 4);
}
