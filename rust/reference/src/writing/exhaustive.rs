//! Every source of some small kinds.

/// A kind of sources: each has one choice of every row, in order.
pub struct Kind {
    pub name: &'static str,
    rows: Vec<&'static [&'static str]>,
}

const BYTES: &[&str] = &["", "%", "'", "C", "\n", ";", "!", " ", "A", "1"];
const QUOTED: &[&str] = &["", "'", " ", "a", "\n", "%", ";"];
const SIGNS: &[&str] = &["", "+", "-", "\\"];
const OPERATORS: &[&str] = &[
    "A+", "A-", "A*", "A/", "A**", "A<<", "A>>", "A&", "A!", "A!!",
];
const EXPRESSION: &[&str] = &["", "A", "(", ")", "-", "\\", "*", "**"];
const SYMBOLS: &[&str] = &[
    "", "<", ">", "=", "-", "*", "!", "/", "#", "&", "\\", ":", " ", "A",
];
const FORMS: &[&str] = &[
    "",
    "%IF ",
    "%THEN ",
    "%ELSE ",
    "%START ",
    "%FINISH ",
    "%AND ",
    "A",
    "=",
    "1",
    "->",
    ":",
    "SEND",
    "(",
    ")",
    "%INTEGER ",
    ",",
    "%BEGIN ",
    ";",
];
/// Comparisons with what joins them, and what nearly does.
const JOINED: &[&str] = &["", "A=1", "(", ")", "%AND ", "%OR "];
const BRACKETED: &[&str] = &["", "A", "=", "(", ")", "-", "%OR "];
const STATEMENTS: &[&str] = &[
    "",
    "%BEGIN\n",
    "%INTEGER A\n",
    "%INTEGER A,B\n",
    "A=1\n",
    "B=A\n",
    "SEND=1\n",
    "1:\n",
    "1:2:\n",
    "0:\n",
    "2:->1\n",
    "->2\n",
    "%ENDOFPROGRAM\n",
];
const GROUPS: &[&str] = &[
    "",
    "%IF A=1%THEN %START\n",
    "%FINISH\n",
    "%FINISH%ELSE%START\n",
    "A=1\n",
    "1:\n",
    "->1\n",
];
const KEYWORDS: &[&str] = &[
    "", "%", " ", "if", "IF", "THEN", "and", "OR", "A", "a=", "1", "%c\n", "C\n", "=",
];
const ZEROS: &[&str] = &["", "0", "00000000000"];
const HIGH_DIGITS: &[&str] = &["", "21474836", "42949672", "99999999", "1844674407370955"];
const LOW_DIGITS: &[&str] = &[
    "0", "7", "39", "40", "46", "47", "48", "49", "50", "95", "96", "97", "99", "470", "1615",
    "1616", "1617",
];
const START: &[&str] = &["%BEGIN\n%INTEGER A\n"];
const END: &[&str] = &["\n%ENDOFPROGRAM\n"];

/// Groups that are open before the others, of a first part and of a second.
const GROUPS_BEFORE: &[&str] = &[
    "",
    "%IF A=1%THEN %START\n->1\n",
    "%IF A=1%THEN %START\nA=1\n%FINISH%ELSE%START\n",
];

/// The kinds, some two and a half million sources in all.
pub fn kinds() -> Vec<Kind> {
    let within = |start, part: &'static [&'static str], times: usize, end| {
        let mut rows: Vec<&'static [&'static str]> = vec![START, start];
        rows.extend(vec![part; times]);
        rows.extend([end, END]);
        rows
    };
    let kind = |name, rows| Kind { name, rows };
    vec![
        kind("all bytes", vec![BYTES; 5]),
        kind(
            "bytes in a statement",
            within(&["A="], BYTES, 5, &["A", "A;A=A"]),
        ),
        kind("quotes", within(&["A='"], QUOTED, 6, &["'"])),
        kind("keywords", within(&["%"], KEYWORDS, 4, &["A=1%THEN A=1"])),
        kind(
            "symbols",
            within(&["%IF A", "A"], SYMBOLS, 4, &["A %THEN A=1", "1"]),
        ),
        kind("levels", {
            let mut rows = within(&["A="], OPERATORS, 4, &["1"]);
            rows.insert(2, SIGNS);
            rows
        }),
        kind("expressions", within(&["A="], EXPRESSION, 5, &["A", ")"])),
        kind(
            "conditions",
            vec![
                START,
                &["%IF ", ""],
                &["A", "-A", ""],
                &["=", "<", "=="],
                &["1", "-1", ""],
                &["%THEN ", "%ELSE ", ""],
                &["A=1", "->1", "->2", "SEND(1)", "%IF A=1%THEN A=1", ""],
                &["%ELSE ", "%THEN ", ""],
                &["A=1", "->1", "->2", "SEND(A)", "SEND=1", ""],
                &["", ";1:", "%ELSE A=1"],
                END,
            ],
        ),
        kind(
            "joined conditions",
            within(&["%IF "], JOINED, 7, &["%THEN A=1"]),
        ),
        kind(
            "brackets of conditions",
            within(&["%IF A", "%IF (A"], BRACKETED, 6, &["1%THEN A=1"]),
        ),
        kind("forms", within(&[""], FORMS, 4, &["", "A=1"])),
        kind(
            "statements",
            vec![
                &["", "%BEGIN\n", "%BEGIN\n%INTEGER A\n"],
                STATEMENTS,
                STATEMENTS,
                STATEMENTS,
                STATEMENTS,
                &["", "%ENDOFPROGRAM"],
            ],
        ),
        kind("groups", within(GROUPS_BEFORE, GROUPS, 6, &["", "2:->2"])),
        kind(
            "forms of groups",
            vec![
                START,
                &["%IF A=1 %THEN %START\n", ""],
                &["A=1\n", "1:\n", ""],
                &["", "1:", "%IF A=1 %THEN ", "A=1;"],
                &["%FINISH", "%START", "A=1", ""],
                &[" ", ";"],
                &["", "%ELSE "],
                &["%START", "A=1", "%FINISH", ""],
                &["", "A=1", ";A=1", ";A=1\n%FINISH", ";1:\n%FINISH"],
                &["", ";%FINISH", ";%FINISH;%FINISH"],
                END,
            ],
        ),
        kind(
            "decimal constants",
            vec![
                START,
                &["A=", "->", ""],
                ZEROS,
                HIGH_DIGITS,
                LOW_DIGITS,
                &["", ":"],
                END,
            ],
        ),
    ]
}

impl Kind {
    /// Visits every source of the kind. Rows that have a choice of nothing give some of them more
    /// than once.
    pub fn every_source(&self, mut visit: impl FnMut(&[u8])) {
        let mut choices = vec![0; self.rows.len()];
        let mut source = Vec::new();
        loop {
            source.clear();
            for (row, &choice) in self.rows.iter().zip(&choices) {
                source.extend(row[choice].bytes());
            }
            visit(&source);
            // the next source: the first row that is not at its last choice moves on
            let may_move = |row: &usize| choices[*row] + 1 < self.rows[*row].len();
            let Some(row) = (0..choices.len()).find(may_move) else {
                return;
            };
            choices[..row].fill(0);
            choices[row] += 1;
        }
    }
}
