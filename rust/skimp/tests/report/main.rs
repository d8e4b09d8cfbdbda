//! The programs of docs/REPORT.md: each case on the page is tried on the archive.
//!
//! The page is read in this form. All else on it is text for the reader.
//!
//! - A fenced block `skimp` is a source. One or more of them stand before a fenced block `reply`,
//!   which holds for each.
//! - The lines of a `reply` are `object`, `sheet` and `sends`, or `refused` alone. A line that
//!   begins with a space goes on with the line before it. Spaces stand for tabs, and `;` for the
//!   ends of lines: `object BOX 0 0 1; STOP - 0`, `sends 3, 4 in 9 steps, stopped`,
//!   `sends nothing in 2 steps, fault 1`, `refused 7 at 3`.
//! - A fenced block `frame` is a source with `....` in one place. The next table that has a column
//!   `example` gives what stands there, a case in each row. Its column `reply` has the line `sends`
//!   or `refused`; its columns `object` and `sheet`, where it has them, the rest. Each of these
//!   cells is one piece of code between backquotes.
//! - No other fenced block is on the page.

mod calls;
mod form;
mod page;
mod pieces;
mod table;

use calls::Made;
use page::Case;

const PAGE: &str = include_str!("../../../../docs/REPORT.md");

/// The page has so many cases, at least: one that is read as text would be missed otherwise.
const LEAST_CASES: usize = 183;

/// What the calls make of a case where it is not what the page says.
fn difference(case: &Case) -> Option<String> {
    let made = Made::of(&case.source);
    let wanted = &case.wanted;
    let differs =
        |wanted: &Option<String>, made: &Option<String>| wanted.is_some() && wanted != made;
    if wanted.reply == made.reply
        && !differs(&wanted.object, &made.object)
        && !differs(&wanted.sheet, &made.sheet)
    {
        return None;
    }
    Some(format!(
        "line {}:\n{}page: {wanted:#?}\nmade: {made:#?}\n",
        case.line, case.source
    ))
}

#[test]
fn cases_of_the_page() {
    let cases = page::cases(PAGE).expect("a page in its form");
    assert!(cases.len() >= LEAST_CASES, "{} cases", cases.len());
    let differences: Vec<String> = cases.iter().filter_map(difference).collect();
    assert!(differences.is_empty(), "\n{}", differences.join("\n"));
}

/// Each line of a reply counts.
#[test]
fn wrong_lines_are_found() {
    let right = "```skimp\n%BEGIN;SEND(7/2)\n%ENDOFPROGRAM\n```\n```reply\n\
                 object BOX 0 0 4; LOAD K 7; DIV K 2;\n  SEND - 0; STOP - 0\n\
                 sheet SHEET 0 1; SEND / K7 K2\nsends 4 in 4 steps, stopped\n```\n";
    let found = |page: &str| {
        let cases = page::cases(page).expect("a page in its form");
        assert_eq!(cases.len(), 1);
        difference(&cases[0]).is_some()
    };
    assert!(!found(right));
    for (piece, wrong) in [
        ("BOX 0 0 4", "BOX 0 0 5"),
        ("DIV K 2", "DIV K 3"),
        (" STOP - 0", ""),
        ("/ K7 K2", "/ K2 K7"),
        ("sends 4 in", "sends 3 in"),
        ("4 steps", "5 steps"),
        ("stopped", "fault 1"),
    ] {
        assert!(found(&right.replacen(piece, wrong, 1)), "{wrong}");
    }
}
