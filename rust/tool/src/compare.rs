//! `skimp compare`: is an object this source's, and if not, where do their sheets differ?

use crate::commands::{compile, counted, printed, read_back};
use crate::files::{self, Place};
use crate::{object, Failure, Outcome, REFUSED};
use std::fmt::Write;

/// A longer line of the left sheet goes on below.
const MOST_WIDTH: usize = 60;

/// Compares bytes. Each object has one sheet and each sheet one object, so where the objects differ,
/// the sheets do too.
pub fn perform(source: &Place, object: &Place) -> Result<Outcome, Failure> {
    let ours = compile(source, None)?;
    let theirs = files::read(object)?;
    if ours == theirs {
        return Ok(printed(format!("{object} is the object of {source}\n")));
    }
    let ours = read_back(&source.to_string(), &ours, None)?;
    let theirs = read_back(&object.to_string(), &theirs, None)?;
    let (left, right) = (Side::of(&ours), Side::of(&theirs));
    let rows = rows(&left.lines, &right.lines);
    let mut text = format!("{object} is not the object of {source}\n\n");
    let width = left.lines.iter().map(String::len).max().unwrap_or(0);
    let width = width.max(source.to_string().len()).min(MOST_WIDTH);
    let head = [source.to_string(), object.to_string()];
    show(["", ""], [&head[0], &head[1]], ' ', width, &mut text);
    for row in &rows {
        row.show(&left, &right, width, &mut text);
    }
    let count = rows.iter().filter(|row| row.mark() != ' ').count();
    writeln!(
        text,
        "\n{} of {} differ",
        count,
        counted(rows.len(), "line")
    )
    .expect("a string");
    Ok(Outcome {
        status: REFUSED,
        ..printed(text)
    })
}

/// The lines of a sheet's text, their fields parted by spaces.
fn lines(sheet: &[u8]) -> Vec<String> {
    let text = object::spaced(sheet);
    text.lines().map(str::to_string).collect()
}

/// The number of the instruction on each line of a sheet, or nothing where there is none: on the first
/// line, and on the lines that part groups.
fn numbers(lines: &[String]) -> Vec<String> {
    let mut count = 0;
    let number = |(place, line): (usize, &String)| {
        if place == 0 || ["START", "ELSE", "FINISH"].contains(&line.as_str()) {
            return String::new();
        }
        count += 1;
        count.to_string()
    };
    lines.iter().enumerate().map(number).collect()
}

/// A sheet to be shown.
struct Side {
    lines: Vec<String>,
    numbers: Vec<String>,
}

impl Side {
    fn of(sheet: &[u8]) -> Side {
        let lines = lines(sheet);
        let numbers = numbers(&lines);
        Side { lines, numbers }
    }
}

/// Lines of the two sheets that stand side by side, by their places.
struct Row {
    left: Option<usize>,
    right: Option<usize>,
    same: bool,
}

impl Row {
    fn mark(&self) -> char {
        match self {
            Row { same: true, .. } => ' ',
            Row { left: None, .. } => '>',
            Row { right: None, .. } => '<',
            _ => '|',
        }
    }

    fn show(&self, left: &Side, right: &Side, width: usize, text: &mut String) {
        let places = [(left, self.left), (right, self.right)];
        let numbers = places.map(|(side, place)| place.map_or("", |place| &side.numbers[place]));
        let lines = places.map(|(side, place)| place.map_or("", |place| &side.lines[place]));
        show(numbers, lines, self.mark(), width, text);
    }
}

/// Writes two lines side by side. The left one goes on below where it is over the width.
fn show(numbers: [&str; 2], lines: [&str; 2], mark: char, width: usize, text: &mut String) {
    let mut numbers = numbers;
    let [mut left, mut right] = lines;
    let mut mark = mark;
    loop {
        let (front, rest) = left.split_at(left.len().min(width));
        let row = format!(
            "{:>4} {front:<width$} {mark} {:>4} {right}",
            numbers[0], numbers[1]
        );
        *text += row.trim_end();
        text.push('\n');
        if rest.is_empty() {
            return;
        }
        (numbers, left, right) = (["", ""], rest, "");
        if mark != ' ' {
            mark = '.';
        }
    }
}

/// Sets the lines of two sheets side by side: as many equal ones as can be, in order, and between
/// them the others.
fn rows(left: &[String], right: &[String]) -> Vec<Row> {
    let common = common(left, right);
    let (mut i, mut j) = (0, 0);
    let mut rows = Vec::new();
    while i < left.len() || j < right.len() {
        let same = i < left.len() && j < right.len() && left[i] == right[j];
        let differ = i < left.len() && j < right.len() && common[i][j] == common[i + 1][j + 1];
        let left_only = j == right.len() || (i < left.len() && common[i][j] == common[i + 1][j]);
        let (has_left, has_right) = match (same || differ, left_only) {
            (true, _) => (true, true),
            (false, true) => (true, false),
            (false, false) => (false, true),
        };
        rows.push(Row {
            left: has_left.then_some(i),
            right: has_right.then_some(j),
            same,
        });
        i += usize::from(has_left);
        j += usize::from(has_right);
    }
    rows
}

/// How many lines two sheets have in common from line i of the one and j of the other on.
fn common(left: &[String], right: &[String]) -> Vec<Vec<usize>> {
    let mut common = vec![vec![0; right.len() + 1]; left.len() + 1];
    for i in (0..left.len()).rev() {
        for j in (0..right.len()).rev() {
            common[i][j] = match left[i] == right[j] {
                true => common[i + 1][j + 1] + 1,
                false => common[i + 1][j].max(common[i][j + 1]),
            };
        }
    }
    common
}
