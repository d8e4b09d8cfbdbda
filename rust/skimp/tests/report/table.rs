//! Tables of examples: a case in each row.

use crate::calls::Made;
use crate::page::{Case, GAP};

pub struct Table<'p> {
    line: usize,
    heading: Vec<&'p str>,
    /// The rows behind the heading: first the one of `---`.
    rows: Vec<Vec<&'p str>>,
}

impl<'p> Table<'p> {
    pub fn of(line: usize, lines: &[&'p str]) -> Table<'p> {
        let cells = |line: &'p str| -> Vec<&'p str> {
            let cells = line.trim_end().trim_matches('|').split('|');
            cells.map(str::trim).collect()
        };
        let mut rows = lines.iter().map(|line| cells(line));
        let heading = rows.next().unwrap_or_default();
        Table {
            line,
            heading,
            rows: rows.collect(),
        }
    }

    pub fn column(&self, name: &str) -> Option<usize> {
        self.heading.iter().position(|heading| *heading == name)
    }

    /// The cases of the rows, each example put into a frame.
    pub fn cases(&self, frame: &str) -> Result<Vec<Case>, String> {
        let (under, rows) = match &self.rows[..] {
            [under, rows @ ..] if !rows.is_empty() => (under, rows),
            _ => return Err("a table of examples with no rows".to_string()),
        };
        if under.iter().any(|cell| *cell != "---") {
            return Err("no line of --- under the heading".to_string());
        }
        let case = |(row, cells): (usize, &Vec<&str>)| {
            let line = self.line + 2 + row;
            let case = self.case(cells, frame, line);
            case.map_err(|wrong| format!("row of line {line}: {wrong}"))
        };
        rows.iter().enumerate().map(case).collect()
    }

    fn case(&self, cells: &[&str], frame: &str, line: usize) -> Result<Case, String> {
        if cells.len() != self.heading.len() {
            return Err(format!("{} cells", cells.len()));
        }
        let cell = |name: &str| {
            self.column(name)
                .map(|place| code(cells[place]))
                .transpose()
        };
        let example = cell("example")?.ok_or("no column example")?;
        let reply = cell("reply")?.ok_or("no column reply")?;
        if !reply.starts_with("sends ") && !reply.starts_with("refused ") {
            return Err(format!("no reply's line: {reply}"));
        }
        Ok(Case {
            line,
            source: frame.replace(GAP, &example),
            wanted: Made {
                object: cell("object")?,
                sheet: cell("sheet")?,
                reply,
            },
        })
    }
}

/// What stands between the backquotes of a cell.
fn code(cell: &str) -> Result<String, String> {
    let code = cell
        .strip_prefix('`')
        .and_then(|rest| rest.strip_suffix('`'));
    match code {
        Some(code) if !code.contains('`') => Ok(code.to_string()),
        _ => Err(format!("no code between backquotes: {cell}")),
    }
}
