//! Pages that are not in the form that main.rs lays down: none of their cases is passed over.

use crate::page::cases;

const SOURCE: &str = "```skimp\n%BEGIN\n```\n";
const REPLY: &str = "```reply\nrefused 10 at 1\n```\n";
const FRAME: &str = "```frame\n%BEGIN\n....\n```\n";
const TABLE: &str = "| example | reply |\n|---|---|\n| `A` | `refused 7 at 2` |\n";

/// Finds a page wrong, with this said of it.
fn wrong(page: &str, said: &str) {
    let error = cases(page).expect_err(page);
    assert!(error.contains(said), "{error:?} for\n{page}");
}

#[test]
fn a_page_in_its_form() {
    let page = format!("{SOURCE}{SOURCE}{REPLY}\n{FRAME}text\n\n{TABLE}");
    let cases = cases(&page).expect("a page in its form");
    let lines: Vec<usize> = cases.iter().map(|case| case.line).collect();
    assert_eq!(lines, [1, 4, 19]);
    let sources: Vec<&str> = cases.iter().map(|case| &case.source[..]).collect();
    assert_eq!(sources, ["%BEGIN\n", "%BEGIN\n", "%BEGIN\nA\n"]);
}

#[test]
fn pieces_in_another_order() {
    for (pieces, said) in [
        (&[SOURCE][..], "no reply"),
        (&[SOURCE, FRAME], "no reply"),
        (&[SOURCE, TABLE], "no frame"),
        (&[REPLY], "no source"),
        (&[SOURCE, REPLY, REPLY], "no source"),
        (&[FRAME], "no table"),
        (&[FRAME, FRAME], "no table"),
        (&[FRAME, SOURCE], "no table"),
        (&[TABLE], "no frame"),
        (&[FRAME, TABLE, "\n", TABLE], "no frame"),
    ] {
        wrong(&pieces.concat(), said);
    }
}

#[test]
fn blocks_of_another_form() {
    for (block, said) in [
        ("```frame\n%BEGIN\n```\n", "...."),
        ("```frame\n....\n....\n```\n", "...."),
        ("```\n%BEGIN\n```\n", "no block"),
        ("```skmp\n%BEGIN\n```\n", "no block"),
        ("```skimp\n%BEGIN\n", "not closed"),
    ] {
        wrong(block, said);
    }
}

#[test]
fn replies_of_another_form() {
    for lines in [
        "",
        "refusal 10 at 1\n",
        "refused 10 at 1\nstopped\n",
        "refused 10 at 1\nsheet SHEET 0 0\n",
        "sends 1 in 3 steps, stopped\n",
        "object BOX 0 0 1; STOP - 0\nsheet SHEET 0 0\n",
        "sheet SHEET 0 0\nobject BOX 0 0 1; STOP - 0\nsends nothing in 1 step, stopped\n",
    ] {
        wrong(&format!("{SOURCE}```reply\n{lines}```\n"), "no reply's");
    }
}

#[test]
fn tables_of_another_form() {
    for (piece, other, said) in [
        ("example", "exampel", "no table"),
        ("reply", "replies", "no column reply"),
        ("|---|---|\n", "", "no rows"),
        (
            "|---|---|",
            "| `A` | `refused 7 at 2` |",
            "under the heading",
        ),
        ("| `A` | `refused 7 at 2` |\n", "", "no rows"),
        ("`A`", "A", "backquotes"),
        ("`A`", "`A` or `B`", "backquotes"),
        ("| `A` ", "", "cells"),
        ("refused", "refusal", "no reply's"),
    ] {
        let table = TABLE.replacen(piece, other, 1);
        assert_ne!(table, TABLE);
        wrong(&format!("{FRAME}{table}"), said);
    }
}
