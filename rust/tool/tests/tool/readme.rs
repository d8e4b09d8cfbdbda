//! What the documents show is what there is.

use crate::session::{printed, repository, Session};
use std::fs;

pub fn text(name: &str) -> String {
    fs::read_to_string(repository(name)).expect("a file")
}

/// The commands of the session in README, each with what it prints.
fn commands(readme: &str) -> Vec<(&str, String)> {
    let (_, rest) = readme.split_once("```console\n").expect("a session");
    let (session, rest) = rest.split_once("```").expect("its end");
    assert!(!rest.contains("```console"), "one session");
    let mut commands: Vec<(&str, String)> = Vec::new();
    for line in session.lines() {
        match (line.strip_prefix("$ "), commands.last_mut()) {
            (Some(command), _) => commands.push((command, String::new())),
            (None, Some((_, printed))) => *printed += &format!("{line}\n"),
            (None, None) => panic!("{line} stands before the first command"),
        }
    }
    commands
}

#[test]
fn session() {
    let readme = text("README.md");
    let commands = commands(&readme);
    assert!(commands.len() >= 8, "too few commands");
    let session = Session::new();
    session.put("heater.skimp", text("examples/heater.skimp"));
    for (command, expected) in commands {
        assert_eq!(printed(&session, command), expected, "$ {command}");
    }
}

/// The program in the manual is the one in examples/.
#[test]
fn program_in_the_manual() {
    let indented = |line: &str| match line {
        "" => "\n".to_string(),
        line => format!("    {line}\n"),
    };
    let program: String = text("examples/heater.skimp")
        .lines()
        .map(indented)
        .collect();
    assert!(text("docs/MANUAL.md").contains(&program));
}

/// The program with groups in the manual sends what the manual says.
#[test]
fn groups_in_the_manual() {
    let manual = text("docs/MANUAL.md");
    let (_, rest) = manual.split_once("### Groups\n").expect("the section");
    let lines = rest.lines().skip_while(|line| !line.contains("%BEGIN"));
    let lines = lines.take_while(|line| line.starts_with("    "));
    let program: String = lines.map(|line| format!("{}\n", &line[4..])).collect();
    let session = Session::new();
    session.put("groups.skimp", &program);
    let command = "skimp compile groups.skimp | skimp run -";
    let shown = printed(&session, command);
    assert!(shown.starts_with("sent: 124 123 -122\n"), "{shown}");
    assert!(rest.contains("It sends 124, 123 and -122."));
}

/// The limits that the manual names are those of the calls.
#[test]
fn limits_in_the_manual() {
    let manual = text("docs/MANUAL.md");
    let thousands = |number: usize| format!("{},{:03}", number / 1000, number % 1000);
    let variables = format!("{} variables", skimp::MOST_VARIABLES);
    let orders = format!("{} orders", thousands(skimp::MOST_ORDERS));
    let temporaries = format!("{} temporaries", skimp::MOST_TEMPORARIES);
    let labels = format!("{} labels", skimp::MOST_LABELS);
    let levels = format!("{} deep", skimp::MOST_LEVELS);
    let comparisons = format!("{} comparisons", skimp::MOST_COMPARISONS);
    let cells = format!("{} characters", skimp::MOST_CELLS - 1);
    let bytes = format!("{} bytes", thousands(skimp::SOURCE_MOST));
    let greatest = format!("over {}", skimp::GREATEST_LABEL);
    for (start, limits) in [
        (
            "Limits: ",
            vec![&bytes, &cells, &labels, &levels, &comparisons],
        ),
        ("Limits: ", vec![&variables, &orders, &temporaries]),
        ("| 1 | 0", vec![&bytes]),
        ("| 4 | the statement", vec![&cells]),
        ("| 9 | the statement", vec![&greatest]),
        ("| 11 | the statement", vec![&labels, &levels, &comparisons]),
        (
            "| 11 | the statement",
            vec![&variables, &orders, &temporaries],
        ),
        ("| 21 | 0", vec![&variables, &orders, &temporaries]),
    ] {
        let line = manual.lines().find(|line| line.starts_with(start));
        let line = line.unwrap_or_else(|| panic!("no line begins with {start}"));
        for limit in limits {
            assert!(line.contains(limit), "{limit}: {line}");
        }
    }
}

/// What a program of one statement after another, with variables A and B, sends.
fn sent(statements: &str) -> Vec<i64> {
    let session = Session::new();
    let program = format!("%BEGIN\n%INTEGER A, B\n{statements}%ENDOFPROGRAM\n");
    session.put("statements.skimp", &program);
    let shown = printed(&session, "skimp compile statements.skimp | skimp run -");
    let numbers = shown.lines().find_map(|line| line.strip_prefix("sent: "));
    let numbers = numbers.unwrap_or_else(|| panic!("{shown}")).split(' ');
    numbers
        .map(|number| number.parse().expect(number))
        .collect()
}

/// The quotients in the manual are what a program sends, and the expression that it gives for a
/// quotient without its remainder drops that, up to the limit that it names.
#[test]
fn division_in_the_manual() {
    let manual = text("docs/MANUAL.md");
    for (quotient, value) in [("7/2", 4), ("-7/2", -4), ("1/3", 0), ("2/3", 1)] {
        assert!(manual.contains(&format!("`{quotient}` is {value}")));
        assert_eq!(sent(&format!("SEND({quotient})\n")), [value]);
    }
    let dropped = "(2*A - B + 1) / (2*B)";
    assert!(manual.contains(&format!("`{dropped}`; A and B may be up to 1073741823")));
    let (mut statements, mut expected) = (String::new(), Vec::new());
    for a in [0, 1, 2, 3, 6, 7, 99, 1_073_741_823] {
        for b in [1, 2, 3, 6, 7, 99, 1_073_741_823] {
            statements += &format!("A = {a} ; B = {b} ; SEND({dropped})\n");
            expected.push(a / b);
        }
    }
    assert_eq!(sent(&statements), expected);
}

/// The command's words for each refusal are those of the manual page's example and of README.
#[test]
fn refusal_in_the_manual_page() {
    let session = Session::new();
    session.put(
        "heater.skimp",
        text("examples/heater.skimp").replace("2 * HEATER", "2 * HEATR"),
    );
    let page = text("docs/skimp.1").replace("\\-", "-");
    let refusal = session.skimp(&["check", "heater.skimp"]).err;
    assert!(page.contains(&refusal), "{refusal}");
}

/// Each piece in FOLLOW.md stands in the file that was named last before it.
#[test]
fn followed_sentence() {
    let page = text("docs/FOLLOW.md");
    let (mut file, mut pieces) = (String::new(), 0);
    for (count, part) in page.split("```\n").enumerate() {
        if count % 2 == 0 {
            let names = part.split("Of `").skip(1);
            let last = names.filter_map(|name| name.split('`').next()).last();
            file = last.map_or(file, str::to_string);
        } else {
            assert!(text(&file).contains(part), "{file} has no\n{part}");
            pieces += 1;
        }
    }
    assert!(pieces >= 10, "only {pieces} pieces");
}

/// The trace in the manual is the one of document 01's worked object.
#[test]
fn trace_in_the_manual() {
    let session = Session::new();
    session.put("worked.box", text("examples/worked.box"));
    let command = "skimp run worked.box --trace --steps 2";
    let shown = format!("$ {command}\n{}", printed(&session, command));
    let shown: String = shown.lines().map(|line| format!("    {line}\n")).collect();
    assert!(text("docs/MANUAL.md").contains(&shown), "{shown}");
}
