//! Joined conditions: what the manual shows of them, and what the command says of them.

use crate::readme::text;
use crate::session::{done, printed, said, Session};

/// The lines of the first program behind a heading of the manual, or of another block of lines that
/// stand in by four spaces, from the first that begins so.
fn block(manual: &str, heading: &str, first: &str) -> Vec<String> {
    let (_, rest) = manual.split_once(heading).expect("the heading");
    let is_first = |line: &&str| line.trim_start().starts_with(first);
    let lines = rest.lines().skip_while(|line| !is_first(line));
    let lines = lines.take_while(|line| line.starts_with("    "));
    lines.map(|line| line[4..].to_string()).collect()
}

/// The program in the manual sends what the manual says.
#[test]
fn program_of_the_manual() {
    let manual = text("docs/MANUAL.md");
    let program = block(&manual, "### Joined conditions\n", "%BEGIN").join("\n");
    let session = Session::new();
    session.put("joined.skimp", program + "\n");
    let shown = printed(&session, "skimp compile joined.skimp | skimp run -");
    assert!(shown.starts_with("sent: 123 -122 121 120\n"), "{shown}");
    assert!(manual.contains("It sends 123, -122, 121 and 120."));
}

/// What an `%IF` of the variables compiles to.
fn object(session: &Session, variables: &str, statement: &str) -> String {
    let source = format!("%BEGIN\n%INTEGER {variables}\n{statement}\n%ENDOFPROGRAM\n");
    session.put("a.skimp", source);
    let compiled = session.skimp(&["compile", "a.skimp", "-o", "a.box"]);
    assert_eq!(compiled, done(""), "{statement}");
    String::from_utf8(session.get("a.box")).expect("text")
}

/// The orders in the manual are those of the statement that it names.
#[test]
fn object_of_the_manual() {
    let manual = text("docs/MANUAL.md");
    let (_, rest) = manual
        .split_once("These are the orders of `")
        .expect("them");
    let (statement, rest) = rest.split_once('`').expect("a statement");
    assert!(rest.starts_with(", with TIMER in\nword 2, BANK in word 3 and SUN in word 4:"));
    let lines = block(&manual, "These are the orders of `", "COND");
    let record = |line: &String| {
        let fields: Vec<&str> = line.split_whitespace().take(3).collect();
        fields.join("\t") + "\n"
    };
    let shown: String = lines.iter().map(record).collect();
    let header = format!("BOX\t3\t0\t{}\n", lines.len());
    let session = Session::new();
    let object = object(&session, "TIMER, BANK, SUN", statement);
    assert_eq!(object, header + &shown);
    // the notes count the orders
    for (place, line) in lines.iter().enumerate() {
        if let Some((_, note)) = line.split_once("  order ") {
            let number: String = note.chars().take_while(char::is_ascii_digit).collect();
            assert_eq!(number, place.to_string(), "{line}");
        }
    }
}

/// Each condition in the manual's table has the line of the sheet that stands beside it.
#[test]
fn sheets_of_the_manual() {
    let manual = text("docs/MANUAL.md");
    let (_, rest) = manual
        .split_once("| condition | line of the sheet |\n|---|---|\n")
        .expect("the table");
    let rows: Vec<&str> = rest
        .lines()
        .take_while(|line| line.starts_with('|'))
        .collect();
    assert_eq!(rows.len(), 8);
    let session = Session::new();
    for row in rows {
        let parts: Vec<&str> = row.split('`').collect();
        let [_, condition, _, line, _] = parts[..] else {
            panic!("{row}");
        };
        let statement = format!("%IF {condition} %THEN SEND(1)");
        object(&session, "A, B, C, D, E", &statement);
        let sheet = session.skimp(&["readback", "a.box"]).out;
        let expected = format!("SHEET 5 2\n{line}\nSTART\nSEND K1\nFINISH\n");
        assert_eq!(sheet.replace('\t', " "), expected, "{condition}");
    }
}

/// The conditions that the manual names in its text: two that are refused, two that are written in their
/// place, and one that guards a division.
#[test]
fn conditions_of_the_manual() {
    let manual = text("docs/MANUAL.md");
    let session = Session::new();
    for (condition, is_refused) in [
        ("A = 1 %AND B = 1 %OR C = 1", true),
        ("(A = 1) = B", true),
        ("(A = 1 %AND B = 1) %OR C = 1", false),
        ("A = 1 %AND (B = 1 %OR C = 1)", false),
    ] {
        assert!(manual.contains(&format!("`{condition}`")), "{condition}");
        let statement = format!("%IF {condition} %THEN SEND(1)");
        let source = format!("%BEGIN\n%INTEGER A, B, C\n{statement}\n%ENDOFPROGRAM\n");
        session.put("a.skimp", source);
        let words = "no such form, or out of order [7]";
        let refusal = said(
            1,
            &format!("a.skimp:3: statement 3: {words}\n    {statement}"),
        );
        let ran = session.skimp(&["check", "a.skimp"]);
        match is_refused {
            true => assert_eq!(ran, refusal),
            false => assert_eq!(ran.status, Some(0), "{condition}"),
        }
    }
    let guarded = "%IF B # 0 %AND A / B > 3 %THEN SEND(A)";
    assert!(manual.contains(&format!("`{guarded}` never divides by 0")));
    object(&session, "A, B", guarded);
    // COND, LOAD, CMP, the branch, and STOP
    let ran = session.skimp(&["run", "a.box"]);
    let told = "sent: nothing\nsteps: 5\nending: stopped\nW2 = 0\nW3 = 0\n";
    assert_eq!(ran, done(told));
}

/// COND is shown as a step that changes nothing.
#[test]
fn trace() {
    let session = Session::new();
    object(&session, "N", "%IF N = 0 %AND N < 1 %THEN SEND(7)");
    let ran = session.skimp(&["run", "a.box", "--trace"]);
    let lines = [
        "  step order                              ACC",
        "     1     0  COND K 2                       0",
        "     2     1  LOAD D 2                       0",
        "     3     2  CMP K 0                        0",
        "     4     3  BNE A 9                        0",
        "     5     4  LOAD D 2                       0",
        "     6     5  CMP K 1                       -1",
        "     7     6  BGE A 9                       -1",
        "     8     7  LOAD K 7                       7",
        "     9     8  SEND - 0                       7  sends 7",
        "    10     9  STOP - 0                       7  stops",
        "sent: 7",
        "steps: 10",
        "ending: stopped",
        "W2 = 0",
        "",
    ];
    assert_eq!(ran, done(&lines.join("\n")));
}

/// Brackets that are not needed leave no trace in an object; another word does.
#[test]
fn compare() {
    let session = Session::new();
    object(&session, "A", "%IF A = 1 %OR A = 2 %OR A = 3 %THEN SEND(1)");
    for (statement, is_same) in [
        ("%IF ((A = 1) %OR (A = 2 %OR A = 3)) %THEN SEND(1)", true),
        ("%IF A = 1 %OR (A = 2 %AND A = 3) %THEN SEND(1)", false),
    ] {
        let source = format!("%BEGIN\n%INTEGER A\n{statement}\n%ENDOFPROGRAM\n");
        session.put("b.skimp", source);
        let ran = session.skimp(&["compare", "b.skimp", "a.box"]);
        if is_same {
            assert_eq!(ran, done("a.box is the object of b.skimp\n"));
            continue;
        }
        assert_eq!(ran.status, Some(1));
        let row =
            "   1 IF OR 2 = W2 K1 AND 2 = W2 K2 = W2 K3 |    1 IF OR 3 = W2 K1 = W2 K2 = W2 K3";
        assert!(ran.out.lines().any(|line| line == row), "{}", ran.out);
        assert!(ran.out.ends_with("\n1 of 5 lines differ\n"), "{}", ran.out);
    }
}

/// Seventeen comparisons, and lines and objects with COND that are refused.
#[test]
fn refusals() {
    let session = Session::new();
    let limits =
        "over 128 variables, 64 set labels, 16 levels, 16 comparisons, 32 temporaries, or \
                  2,048 orders with STOP";
    let condition = |count: usize| vec!["1=1"; count].join(" %OR ");
    for (count, is_refused) in [(16, false), (17, true)] {
        let statement = format!("%IF {} %THEN SEND(1)", condition(count));
        session.put("a.skimp", format!("%BEGIN\n{statement}\n%ENDOFPROGRAM\n"));
        let ran = session.skimp(&["check", "a.skimp"]);
        let place = format!("a.skimp:2: statement 2: {limits} [11]");
        let refusal = said(1, &format!("{place}\n    {statement}"));
        match is_refused {
            true => assert_eq!(ran, refusal),
            false => assert_eq!(ran.status, Some(0)),
        }
    }
    session.put("a.box", "BOX\t1\t0\t2\nCOND\tD\t2\nSTOP\t-\t0\n");
    let words = "line 0: not as many good lines as the header says [22]\n    COND\tD\t2";
    let refusal = said(1, &format!("a.box:2: {words}"));
    assert_eq!(session.skimp(&["run", "a.box"]), refusal);
    assert_eq!(session.skimp(&["readback", "a.box"]), refusal);
    // a good object, though no sheet's
    session.put("a.box", "BOX\t0\t0\t2\nCOND\tK\t2\nSTOP\t-\t0\n");
    let refusal = said(1, "a.box: good object, but no sheet translates to it [31]");
    assert_eq!(session.skimp(&["readback", "a.box"]), refusal);
    let ran = session.skimp(&["run", "a.box"]);
    assert_eq!(ran, done("sent: nothing\nsteps: 2\nending: stopped\n"));
}
