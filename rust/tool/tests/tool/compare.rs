//! Is an object this source's?

use crate::session::{done, said, Session};

const SOURCE: &str = "%BEGIN\n%INTEGER A\nA = 1\n%IF A > 3 %THEN ->9\nSEND(A)\n9:\n%ENDOFPROGRAM\n";

fn session() -> Session {
    let session = Session::new();
    session.put("a.skimp", SOURCE);
    assert_eq!(
        session.skimp(&["compile", "a.skimp", "-o", "a.box"]),
        done("")
    );
    session
}

/// The object of SOURCE with a part of it replaced.
fn compared(old: &str, new: &str) -> (Session, crate::session::Ran) {
    let session = session();
    assert_eq!(SOURCE.matches(old).count(), 1);
    session.put("b.skimp", SOURCE.replace(old, new));
    assert_eq!(
        session.skimp(&["compile", "b.skimp", "-o", "b.box"]),
        done("")
    );
    let ran = session.skimp(&["compare", "a.skimp", "b.box"]);
    (session, ran)
}

#[test]
fn same() {
    let session = session();
    let ran = session.skimp(&["compare", "a.skimp", "a.box"]);
    assert_eq!(ran, done("a.box is the object of a.skimp\n"));
    let ran = session.skimp_with(&["compare", "-", "a.box"], SOURCE.as_bytes());
    assert_eq!(ran, done("a.box is the object of -\n"));
    let ran = session.skimp_with(&["compare", "a.skimp", "-"], &session.get("a.box"));
    assert_eq!(ran, done("- is the object of a.skimp\n"));
}

/// Names, spaces, comments and brackets leave no trace in an object.
#[test]
fn other_spelling() {
    let (_, ran) = compared("SEND(A)", "! a comment\nsend((( a )))");
    assert_eq!(ran, done("b.box is the object of a.skimp\n"));
}

#[test]
fn changed_line() {
    let (_, ran) = compared("A = 1", "A = 2");
    assert_eq!(ran.status, Some(1));
    assert_eq!(ran.err, "");
    assert_eq!(
        ran.out,
        "b.box is not the object of a.skimp\n\
         \n\
         \x20    a.skimp           b.box\n\
         \x20    SHEET 1 4         SHEET 1 4\n\
         \x20  1 SET 2 K1   |    1 SET 2 K2\n\
         \x20  2 IF > W2 K3      2 IF > W2 K3\n\
         \x20    START             START\n\
         \x20  3 GOTO 5          3 GOTO 5\n\
         \x20    FINISH            FINISH\n\
         \x20  4 SEND W2         4 SEND W2\n\
         \n\
         1 of 7 lines differ\n"
    );
}

#[test]
fn added_line() {
    let (_, ran) = compared("SEND(A)", "SEND(A);SEND(7)");
    assert_eq!(ran.status, Some(1));
    let rows: Vec<_> = ran.out.lines().skip(3).take(8).collect();
    assert_eq!(
        rows,
        [
            "     SHEET 1 4  |      SHEET 1 5",
            "   1 SET 2 K1        1 SET 2 K1",
            "   2 IF > W2 K3      2 IF > W2 K3",
            "     START             START",
            "   3 GOTO 5     |    3 GOTO 6",
            "     FINISH            FINISH",
            "   4 SEND W2         4 SEND W2",
            "                >    5 SEND K7",
        ]
    );
}

#[test]
fn removed_line() {
    let (_, ran) = compared("SEND(A)\n", "");
    let rows: Vec<_> = ran.out.lines().skip(3).collect();
    assert_eq!(rows[6], "   4 SEND W2    <");
    assert_eq!(rows.last(), Some(&"3 of 7 lines differ"));
}

/// A second part that was left out. The lines that part groups have no number.
#[test]
fn removed_part() {
    let session = session();
    let (first, second) = ("%IF A > 3 %THEN ->9", "%IF A > 3 %THEN ->9 %ELSE A = 2");
    session.put("b.skimp", SOURCE.replace(first, second));
    let ran = session.skimp(&["compare", "b.skimp", "a.box"]);
    assert_eq!(ran.status, Some(1));
    let rows: Vec<_> = ran.out.lines().skip(3).take(9).collect();
    assert_eq!(
        rows,
        [
            "     SHEET 1 5  |      SHEET 1 4",
            "   1 SET 2 K1        1 SET 2 K1",
            "   2 IF > W2 K3      2 IF > W2 K3",
            "     START             START",
            "   3 GOTO 6     |    3 GOTO 5",
            "     ELSE       <",
            "   4 SET 2 K2   <",
            "     FINISH            FINISH",
            "   5 SEND W2         4 SEND W2",
        ]
    );
}

/// A line over the column's width goes on below, so that no part of it is hidden.
#[test]
fn long_lines() {
    let session = session();
    let long = (0..40).map(|_| "A").collect::<Vec<_>>().join("-");
    session.put("b.skimp", SOURCE.replace("A = 1", &format!("A = {long}")));
    let ran = session.skimp(&["compare", "b.skimp", "a.box"]);
    assert_eq!(ran.status, Some(1));
    let line: String = ran
        .out
        .lines()
        .skip(4)
        .take(4)
        .map(|row| &row[5..65.min(row.len())])
        .collect();
    let sheet = format!("SET 2{}{}", " -".repeat(39), " W2".repeat(40));
    assert_eq!(line.trim_end(), sheet);
}

#[test]
fn refused() {
    let session = session();
    session.put("bad.skimp", "%BEGIN\nB = 1\n%ENDOFPROGRAM\n");
    let ran = session.skimp(&["compare", "bad.skimp", "a.box"]);
    let words =
        "bad.skimp:2: statement 2: name unknown, declared twice, or SEND misused [8]\n    B = 1";
    assert_eq!(ran, said(1, words));
    // an object that no source has
    session.put("bad.box", "BOX\t0\t0\t2\nNEG\t-\t0\nSTOP\t-\t0\n");
    let ran = session.skimp(&["compare", "a.skimp", "bad.box"]);
    assert_eq!(
        ran,
        said(
            1,
            "bad.box: good object, but no sheet translates to it [31]"
        )
    );
    let ran = session.skimp(&["compare", "a.skimp", "none.box"]);
    assert_eq!(
        ran,
        said(2, "skimp: none.box: No such file or directory (os error 2)")
    );
}
