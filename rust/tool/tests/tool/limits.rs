//! A program of as many variables, temporaries and orders as there may be through every command, and
//! programs of one more.

use crate::session::{done, said, Ran, Session};

/// The orders of the expression, of an assignment and of two SENDs.
const OTHER_ORDERS: usize = 31 * 5 + 3 + 2 + 4;

/// The declarations of so many variables, V0 and so on, 32 in a list.
fn declarations(count: usize) -> String {
    let names: Vec<String> = (0..count).map(|number| format!("V{number}")).collect();
    let lists = names.chunks(32);
    let list = |list: &[String]| format!("%INTEGER {}\n", list.join(","));
    lists.map(list).collect()
}

/// The last variable becomes 3 by way of 32 temporaries, the first 7. Both are sent, and jumps to the
/// end fill the program up to so many orders, STOP included.
fn source(variables: usize, orders: usize) -> String {
    let lists = declarations(variables);
    let last = format!("V{}", variables - 1);
    let nested = format!("{}\\1{}", "1-(".repeat(31), ")".repeat(31));
    let jumps = "->1\n".repeat(orders - OTHER_ORDERS - 1);
    let body = format!("{last}={nested}\nV0=7\nSEND({last})\nSEND(V0)\n");
    format!("%BEGIN\n{lists}{body}{jumps}1:\n%ENDOFPROGRAM\n")
}

/// A session with the source at the limits and its object.
fn session() -> Session {
    let session = Session::new();
    session.put("a.skimp", source(128, 2048));
    let compiled = session.skimp(&["compile", "a.skimp", "-o", "a.box"]);
    assert_eq!(compiled, done(""));
    session
}

/// What is printed of the variables in the end.
fn variables() -> String {
    let value = |word| match word {
        2 => 7,
        129 => 3,
        _ => 0,
    };
    (2..=129)
        .map(|word| format!("W{word} = {}\n", value(word)))
        .collect()
}

#[test]
fn check() {
    for (variables, orders) in [(64, 1024), (65, 1025), (127, 2047), (128, 2048)] {
        let session = Session::new();
        session.put("a.skimp", source(variables, orders));
        let compiled = session.skimp(&["compile", "a.skimp", "-o", "a.box"]);
        assert_eq!(compiled, done(""));
        let length = session.get("a.box").len();
        let size = format!("{variables} variables, 32 temporaries, {orders} orders");
        let accepted = format!("a.skimp: accepted, {size}, object of {length} bytes\n");
        assert_eq!(session.skimp(&["check", "a.skimp"]), done(&accepted));
    }
}

#[test]
fn readback() {
    let session = session();
    let ran = session.skimp(&["readback", "a.box"]);
    let nested = "\t-\tK1".repeat(31) + "\tNOT\tK1";
    let jumps = "GOTO\t1888\n".repeat(1883);
    let first = format!("SHEET\t128\t1887\nSET\t129{nested}\nSET\t2\tK7\n");
    let sheet = format!("{first}SEND\tW129\nSEND\tW2\n{jumps}");
    assert_eq!(ran, done(&sheet));
}

#[test]
fn run() {
    let session = session();
    let last = format!("ending: stopped\n{}", variables());
    let whole = done(&format!("sent: 3 7\nsteps: 166\n{last}"));
    assert_eq!(session.skimp(&["run", "a.box"]), whole);
    // in slices, with the longest state
    let resume = ["run", "a.box", "--state", "a.state", "--steps", "161"];
    let ran = session.skimp(&resume);
    assert_eq!(ran.status, Some(4));
    let at = "ending: not ended, the steps are used up, at order 161, SEND - 0\n";
    let told = format!("sent: nothing\nsteps: 161\n{at}{}", variables());
    assert_eq!(ran.out, told);
    assert_eq!(session.get("a.state").len(), 668);
    let rest = format!("sent: 3 7\nsteps: 5\n{last}");
    assert_eq!(session.skimp(&resume), done(&rest));
    assert_eq!(session.get("a.state").len(), 668);
    // a word more or less is no state of it
    let refusal = said(1, "a.state: state does not fit the object [26]");
    for length in [412, 664, 667, 669, 672] {
        session.put("a.state", vec![0; length]);
        assert_eq!(session.skimp(&resume), refusal, "{length} bytes");
    }
}

#[test]
fn trace() {
    let session = session();
    let Ran { status, out, .. } = session.skimp(&["run", "a.box", "--trace"]);
    assert_eq!(status, Some(0));
    let rows: Vec<_> = out.lines().collect();
    for row in [
        "    62    61  STR D 160                      1  temporary 30 = 1",
        "    64    63  NOT - 0                       -2",
        "    65    64  STR D 161                     -2  temporary 31 = -2",
        "   158   157  STR D 129                      3  W129 = 3",
        "   165   164  JMP A 2047                     7  goes to 2047",
        "   166  2047  STOP - 0                       7  stops",
    ] {
        assert!(rows.contains(&row), "{row}\n{out}");
    }
}

#[test]
fn compare() {
    let session = session();
    let ran = session.skimp(&["compare", "a.skimp", "a.box"]);
    assert_eq!(ran, done("a.box is the object of a.skimp\n"));
    // the last instruction leads to itself
    let changed = source(128, 2048).replace("->1\n1:", "1:->1\n");
    session.put("b.skimp", changed);
    let Ran { status, out, .. } = session.skimp(&["compare", "b.skimp", "a.box"]);
    assert_eq!(status, Some(1));
    assert!(out.ends_with("\n1883 of 1888 lines differ\n"), "{out}");
    assert!(out.contains("GOTO 1887"), "{out}");
}

#[test]
fn one_more() {
    let limits =
        "over 128 variables, 64 set labels, 16 levels, 16 comparisons, 32 temporaries, or \
                  2,048 orders with STOP";
    let session = Session::new();
    session.put("a.skimp", source(129, 2048));
    let refusal = format!("a.skimp:6: statement 6: {limits} [11]\n    %INTEGER V128");
    assert_eq!(session.skimp(&["check", "a.skimp"]), said(1, &refusal));
    session.put("a.skimp", source(128, 2049));
    let place = 1 + 4 + 4 + 1884;
    let refusal = format!("a.skimp:{place}: statement {place}: {limits} [11]\n    ->1");
    assert_eq!(session.skimp(&["check", "a.skimp"]), said(1, &refusal));
}
