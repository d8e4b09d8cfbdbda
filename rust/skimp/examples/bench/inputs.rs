//! What the texts and objects that the calls are measured on share.

/// A text, with what it is called in the table.
pub struct Input {
    pub name: &'static str,
    /// How large it is, where there is one of another size beside it.
    pub size: Option<Size>,
    pub text: Vec<u8>,
}

impl Input {
    pub fn new(name: &'static str, text: String) -> Input {
        Input {
            name,
            size: None,
            text: text.into_bytes(),
        }
    }

    /// The same input at each of the sizes.
    pub fn of_sizes(name: &'static str, text: impl Fn(Size) -> String) -> [Input; 2] {
        SIZES.map(|size| Input {
            size: Some(size),
            ..Input::new(name, text(size))
        })
    }
}

/// How many variables and orders an input has, if nothing else keeps it from as many.
#[derive(Clone, Copy, PartialEq, Eq)]
pub struct Size {
    pub variables: usize,
    /// Those before STOP.
    pub orders: usize,
}

/// Half of what there may be, and all of it: time for a byte or for a step should be the same at both.
pub const SIZES: [Size; 2] = [
    Size {
        variables: skimp::MOST_VARIABLES / 2,
        orders: skimp::MOST_ORDERS / 2 - 1,
    },
    Size {
        variables: skimp::MOST_VARIABLES,
        orders: skimp::MOST_ORDERS - 1,
    },
];

/// How many IFs may stand in each other.
pub const MOST_LEVELS: usize = skimp::MOST_LEVELS;

/// The orders of a text that parts them by `;`.
pub fn orders(text: &str) -> Vec<String> {
    text.split(';').map(str::to_string).collect()
}
