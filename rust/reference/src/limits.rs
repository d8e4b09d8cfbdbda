//! The limits, each with the words of the papers that set it. Refusals 11 and 21 and the definition
//! of a sheet go by them, and nothing else of the rules has them as numbers.

/// "Raise the orders to 2,048 and the variables to 128."
pub const MOST_VARIABLES: u32 = 128;
/// STOP included.
pub const MOST_ORDERS: usize = 2048;
/// "32 temporaries", as many as the statement that uses most of them.
pub const MOST_TEMPORARIES: u32 = 32;
/// "64 set labels"
pub const MOST_LABELS: usize = 64;
/// "Labels are decimal, 1 to 9999."
pub const GREATEST_LABEL: u32 = 9999;
/// "nested up to 16 deep": how many IFs may stand in each other.
pub const MOST_LEVELS: usize = 16;
/// "up to 16 comparisons" in one IF.
pub const MOST_COMPARISONS: usize = 16;
/// "A statement may hold 256 cells at any moment, its end mark included."
pub const MOST_CELLS: usize = 256;
/// "Source is 0 to 16,384 bytes."
pub const MOST_SOURCE: usize = 16_384;
/// "A decimal constant is 0 to 2147483647", and so are the numbers of object text.
pub const MOST_NUMBER: u32 = 2_147_483_647;
