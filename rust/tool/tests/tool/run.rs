//! Runs: what is sent, the steps, the ending, the state file and the trace.

use crate::session::{done, printed, repository, said, Ran, Session};
use std::fs;

/// A session with the object of a source.
fn session(source: &str) -> Session {
    let session = Session::new();
    session.put("a.skimp", source);
    assert_eq!(
        session.skimp(&["compile", "a.skimp", "-o", "a.box"]),
        done("")
    );
    session
}

fn ended(status: i32, out: &str) -> Ran {
    Ran {
        status: Some(status),
        ..done(out)
    }
}

/// Request L3: "the worked program now sends 5, then 3, in 20 steps."
#[test]
fn worked_program() {
    let session = Session::new();
    let object = fs::read(repository("examples/worked.box")).expect("a file");
    let ran = session.skimp_with(&["run", "-"], &object);
    assert_eq!(
        ran,
        done("sent: 5 3\nsteps: 20\nending: stopped\nW2 = 3\nW3 = 5\n")
    );
}

/// The three orders of `SEND(-5)` come before.
#[test]
fn faults() {
    for (expression, at, order, words) in [
        ("1/0", 4, "DIV K 0", "fault 1, zero divisor"),
        ("2**(-1)", 9, "EXP D 3", "fault 2, negative exponent"),
        (
            "1<<32",
            4,
            "SHL K 32",
            "fault 3, shift count outside 0 to 31",
        ),
        ("1", 4, "SEND - 0", "fault 4, SEND with the output full"),
    ] {
        let session = session(&format!(
            "%BEGIN\nSEND(-5)\nSEND({expression})\n%ENDOFPROGRAM\n"
        ));
        let ran = session.skimp(&["run", "a.box", "--room", "1"]);
        let ending = format!("ending: {words}, at order {at}, {order}\n");
        assert_eq!(ran, ended(3, &format!("sent: -5\nsteps: {at}\n{ending}")));
    }
}

#[test]
fn not_ended() {
    let session = session("%BEGIN\n%INTEGER N\n1: N = N - 1\n->1\n%ENDOFPROGRAM\n");
    let told = |steps, order, word| {
        let ending = "ending: not ended, the steps are used up";
        ended(
            4,
            &format!("sent: nothing\nsteps: {steps}\n{ending}, at order {order}\nW2 = {word}\n"),
        )
    };
    let run = |steps| session.skimp(&["run", "a.box", "--steps", steps]);
    assert_eq!(run("0"), told(0, "0, LOAD D 2", 0));
    assert_eq!(run("5"), told(5, "1, SUB K 1", -1));
    assert_eq!(
        session.skimp(&["run", "a.box"]),
        told(1_000_000, "0, LOAD D 2", -250_000)
    );
}

/// In slices of any length the numbers, the steps and the last variables are those of one run.
#[test]
fn slices() {
    let source = fs::read_to_string(repository("examples/heater.skimp")).expect("a file");
    let session = session(&source);
    let whole = session.skimp(&["run", "a.box"]);
    assert_eq!(whole.status, Some(0));
    for slice in [29_usize, 100, 1007, 1008, 5000] {
        let (mut sent, mut steps) = (Vec::new(), 0);
        let text = slice.to_string();
        let last = loop {
            let Ran { status, out, .. } =
                session.skimp(&["run", "a.box", "--state", "a.state", "--steps", &text]);
            let mut lines = out.lines();
            let numbers = lines.next().expect("numbers").trim_start_matches("sent:");
            sent.extend(
                numbers
                    .split_whitespace()
                    .filter(|it| *it != "nothing")
                    .map(str::to_string),
            );
            let count = lines.next().expect("steps").trim_start_matches("steps: ");
            steps += count.parse::<usize>().expect("a number");
            if status != Some(4) {
                break lines.collect::<Vec<_>>().join("\n") + "\n";
            }
        };
        let told = format!("sent: {}\nsteps: {steps}\n{last}", sent.join(" "));
        assert_eq!(told, whole.out, "{slice}");
        // an ended state reports its ending again
        let again = session.skimp(&["run", "a.box", "--state", "a.state"]);
        assert_eq!(again, done(&format!("sent: nothing\nsteps: 0\n{last}")));
        fs::remove_file(session.path("a.state")).expect("a state");
    }
}

#[test]
fn bad_states() {
    let session = session("%BEGIN\n%INTEGER N\nSEND(1);SEND(2)\n%ENDOFPROGRAM\n");
    let refusal = said(1, "a.state: state does not fit the object [26]");
    let resume = ["run", "a.box", "--state", "a.state"];
    for state in [vec![], vec![0; 31], vec![0; 33], vec![255; 32]] {
        session.put("a.state", &state);
        assert_eq!(session.skimp(&resume), refusal);
        assert_eq!(
            session.skimp(&[&resume[..], &["--trace"]].concat()),
            refusal
        );
        assert_eq!(session.get("a.state"), state);
    }
    session.put("a.state", [0; 32]);
    assert_eq!(session.skimp(&resume).status, Some(0));
    // two numbers were sent, which the smaller room has no place for
    assert_eq!(
        session.skimp(&[&resume[..], &["--room", "1"]].concat()),
        refusal
    );
    assert_eq!(
        session.skimp(&["run", "a.box", "--state", "."]).status,
        Some(2)
    );
}

const TRACED: &str = "%BEGIN\n%INTEGER N\n1: N = 3 - (N + 1)\n\
                      %IF N > 1 %THEN ->1\nSEND(-N)\n%ENDOFPROGRAM\n";

#[test]
fn trace_of_some_steps() {
    let session = session(TRACED);
    let ran = session.skimp(&["run", "a.box", "--trace", "--steps", "12"]);
    let lines = [
        "  step order                              ACC",
        "     1     0  LOAD K 3                       3",
        "     2     1  STR D 3                        3  temporary 0 = 3",
        "     3     2  LOAD D 2                       0",
        "     4     3  ADD K 1                        1",
        "     5     4  STR D 4                        1  temporary 1 = 1",
        "     6     5  LOAD D 3                       3",
        "     7     6  SUB D 4                        2",
        "     8     7  STR D 2                        2  W2 = 2",
        "     9     8  LOAD D 2                       2",
        "    10     9  CMP K 1                        1",
        "    11    10  BLE A 12                       1",
        "    12    11  JMP A 0                        1  goes to 0",
        "sent: nothing",
        "steps: 12",
        "ending: not ended, the steps are used up, at order 0, LOAD K 3",
        "W2 = 2",
        "",
    ];
    assert_eq!(ran, ended(4, &lines.join("\n")));
}

#[test]
fn trace_to_the_end() {
    let session = session(TRACED);
    let ran = session.skimp(&["run", "a.box", "--trace"]);
    let rows: Vec<_> = ran.out.lines().skip(23).take(5).collect();
    let lines = [
        "    23    10  BLE A 12                      -1  goes to 12",
        "    24    12  LOAD D 2                       0",
        "    25    13  NEG - 0                        0",
        "    26    14  SEND - 0                       0  sends 0",
        "    27    15  STOP - 0                       0  stops",
    ];
    assert_eq!(rows, lines);
    let plain = session.skimp(&["run", "a.box"]).out;
    assert!(
        ran.out.ends_with(&format!("  stops\n{plain}")),
        "{}",
        ran.out
    );
}

/// SKIP is shown as what it is, with where it leads.
#[test]
fn traced_skip() {
    let session = session("%BEGIN\n%IF 1 = 1 %THEN SEND(1) %ELSE SEND(2)\n%ENDOFPROGRAM\n");
    let ran = session.skimp(&["run", "a.box", "--trace"]);
    let rows: Vec<_> = ran.out.lines().skip(5).take(3).collect();
    let lines = [
        "     5     4  SEND - 0                       1  sends 1",
        "     6     5  SKIP A 8                       1  goes to 8",
        "     7     8  STOP - 0                       1  stops",
    ];
    assert_eq!(rows, lines);
}

/// The order that faults is shown and is no step, also where it comes right behind the last step.
#[test]
fn traced_fault() {
    let session = session("%BEGIN\nSEND(7/0)\n%ENDOFPROGRAM\n");
    let lines = [
        "  step order                              ACC",
        "     1     0  LOAD K 7                       7",
        "           1  DIV K 0              fault 1, zero divisor",
        "sent: nothing",
        "steps: 1",
        "ending: fault 1, zero divisor, at order 1, DIV K 0",
        "",
    ];
    for steps in ["1", "2", "100"] {
        let ran = session.skimp(&["run", "a.box", "--trace", "--steps", steps]);
        assert_eq!(ran, ended(3, &lines.join("\n")));
    }
}

/// A long run is traced in part, and goes on.
#[test]
fn bounded_trace() {
    let session = session("%BEGIN\n%INTEGER N\n1: N = N + 1\n->1\n%ENDOFPROGRAM\n");
    let ran = session.skimp(&["run", "a.box", "--trace", "--steps", "20001"]);
    let mut lines = ran.out.lines().skip(10_000);
    assert_eq!(
        lines.next(),
        Some(" 10000     3  JMP A 0                     2500  goes to 0")
    );
    assert_eq!(
        lines.next(),
        Some("  the trace ends after 10000 steps, the run goes on")
    );
    let plain = session.skimp(&["run", "a.box", "--steps", "20001"]).out;
    assert_eq!(lines.collect::<Vec<_>>().join("\n") + "\n", plain);
    // none goes on behind a trace of all steps
    let ran = session.skimp(&["run", "a.box", "--trace", "--steps", "10000"]);
    assert!(!ran.out.contains("the trace ends"));
}

/// Who reads the first lines alone gets these, and no complaint.
#[test]
fn read_in_part() {
    let session = session("%BEGIN\n%INTEGER N\n1: N = N + 1\n->1\n%ENDOFPROGRAM\n");
    let lines = printed(&session, "skimp run a.box --trace | head -n 2");
    let shown = "  step order                              ACC\n\
                 \x20    1     0  LOAD D 2                       0\n";
    assert_eq!(lines, shown);
}
