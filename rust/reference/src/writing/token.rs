//! Tokens as the sources of the tests are written from.

#[derive(Clone, Debug, PartialEq, Eq)]
pub enum Token {
    Keyword(&'static str),
    Name(String),
    Decimal(u32),
    Quoted(u32),
    Symbol(&'static str),
    /// A byte that is no token of the language.
    Stray(u8),
}

#[rustfmt::skip]
pub const KEYWORDS: [&str; 10] = [
    "BEGIN", "ENDOFPROGRAM", "INTEGER", "IF", "THEN", "ELSE", "START", "FINISH", "AND", "OR",
];

#[rustfmt::skip]
pub const SYMBOLS: [&str; 22] = [
    "**", "<<", ">>", "!!", "->", "<=", ">=",
    "+", "-", "*", "/", "&", "!", "\\", "=", "#", "<", ">", "(", ")", ",", ":",
];
