//! The reading of source: against values that stand in document 01 or are worked out from it by
//! hand, and against the sheets that random sources were written from. No archive has a part in it.

mod broken;
mod checks;
mod chunks;
mod compare;
mod conditions;
mod forms;
mod groups;
mod limits;
mod round_trip;
mod splitting;
mod statements;
mod tokens;

use skimp_reference::source::read;

/// What a source is read to: its sheet text with spaces for tabs and the lines parted by `; `, or
/// the number of the refusal and its place.
fn read_line(source: &[u8]) -> String {
    match read(source) {
        Ok(sheet) => {
            let text = sheet.text();
            text.trim_end().replace('\t', " ").replace('\n', "; ")
        }
        Err(refusal) => format!("{} at {}", refusal.number, refusal.place),
    }
}

/// Holds each source to what it is read to.
fn check(vectors: &[(&str, &str)]) {
    for (source, expected) in vectors {
        assert_eq!(read_line(source.as_bytes()), *expected, "{source:?}");
    }
}

/// What the third statement of a program with the variables A, B and CAT is read to. Other
/// statements may follow in it. A sheet stands without its first line.
fn third_line(statement: &str) -> String {
    let source = format!("%BEGIN\n%INTEGER A,B,CAT\n{statement}\n%ENDOFPROGRAM\n");
    let line = read_line(source.as_bytes());
    match line.split_once("; ") {
        Some((header, rest)) if header.starts_with("SHEET 3 ") => rest.to_string(),
        _ => line,
    }
}

/// Holds each third statement to what it is read to.
fn check_third(vectors: &[(&str, &str)]) {
    for (statement, expected) in vectors {
        assert_eq!(third_line(statement), *expected, "{statement:?}");
    }
}

#[test]
fn worked_program() {
    let source = "%BEGIN\n%INTEGER A, B\nA = 3 ; B = A - (2 - 5) / 2\n\
                  %IF B > 4 %THEN SEND(B) %ELSE ->1\n1: SEND(A)\n%ENDOFPROGRAM\n";
    let sheet = read(source.as_bytes()).expect("a program");
    assert_eq!(
        sheet.text(),
        "SHEET\t2\t6\nSET\t2\tK3\nSET\t3\t-\tW2\t/\t-\tK2\tK5\tK2\nIF\t>\tW3\tK4\nSTART\n\
         SEND\tW3\nELSE\nGOTO\t6\nFINISH\nSEND\tW2\n"
    );
}
