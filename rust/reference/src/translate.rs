//! The translation of a sheet.

mod conditions;

use crate::compact::{Compact, Line, Node, Place};
use crate::limits::{MOST_COMPARISONS, MOST_LEVELS};
use crate::limits::{MOST_ORDERS, MOST_TEMPORARIES, MOST_VARIABLES};
use crate::object::{self, Kind, Name, Order, LINK_WORDS, STOP};
use crate::sheet::{conditions, depth, Operator, Sheet, Sign, Simple};

/// What a sheet translates to, or orders that may be such.
#[derive(Clone, Debug, PartialEq, Eq)]
pub struct Translation {
    pub variables: u32,
    pub temporaries: u32,
    /// STOP included.
    pub orders: Vec<Order>,
}

impl Translation {
    /// The object text.
    pub fn text(&self) -> String {
        let text = object::text(self.variables, self.temporaries, &self.orders);
        String::from_utf8(text).expect("letters, digits and signs")
    }
}

/// The translation, if its runs are merged and V, T, N, the levels and the comparisons of each IF are
/// within their limits.
pub fn translate(sheet: &Sheet) -> Option<Translation> {
    let mut asked = conditions(&sheet.lines);
    let is_good = asked.all(|asked| asked.is_merged() && asked.count() <= MOST_COMPARISONS);
    let translation = without_limits(sheet);
    let is_within = within_limits(&translation) && depth(&sheet.lines) <= MOST_LEVELS;
    (is_good && is_within).then_some(translation)
}

pub fn within_limits(translation: &Translation) -> bool {
    translation.variables <= MOST_VARIABLES
        && translation.temporaries <= MOST_TEMPORARIES
        && translation.orders.len() <= MOST_ORDERS
}

/// The translation of a sheet of any size.
pub fn without_limits(sheet: &Sheet) -> Translation {
    translate_compact(&Compact::of(sheet))
}

/// The translation of a compact sheet of any size.
pub fn translate_compact(sheet: &Compact) -> Translation {
    let mut writer = Writer {
        sheet,
        first_temporary: LINK_WORDS + sheet.variables,
        temporaries: 0,
        orders: Vec::with_capacity(MOST_ORDERS),
        firsts: Vec::with_capacity(MOST_COMPARISONS + 1),
        over: Vec::new(),
        open: Vec::with_capacity(MOST_LEVELS),
        gotos: Vec::new(),
    };
    let mut first_orders = Vec::with_capacity(sheet.lines.len() + 1);
    for line in &sheet.lines {
        if line.is_instruction() {
            first_orders.push(writer.place());
        }
        writer.line(line);
    }
    first_orders.push(writer.place());
    writer.put(STOP);
    writer.lead_gotos(&first_orders);
    Translation {
        variables: sheet.variables,
        temporaries: writer.temporaries,
        orders: writer.orders,
    }
}

struct Writer<'s> {
    sheet: &'s Compact,
    first_temporary: u32,
    /// The most that were used so far.
    temporaries: u32,
    orders: Vec<Order>,
    /// The first order of each comparison of the condition that is being put, then that of the part.
    firsts: Vec<u32>,
    /// The branches and SKIPs over the parts that are open, those of the innermost last.
    over: Vec<usize>,
    /// How many of them there were when each of the parts was opened.
    open: Vec<usize>,
    /// The places of orders whose address is still an instruction's number.
    gotos: Vec<usize>,
}

impl Writer<'_> {
    /// The place of the next order.
    fn place(&self) -> u32 {
        self.orders.len() as u32
    }

    fn put(&mut self, order: Order) {
        self.orders.push(order);
    }

    fn put_on_word(&mut self, name: Name, word: u32) {
        self.put(Order {
            name,
            kind: Kind::Word,
            number: word,
        });
    }

    fn put_on_constant(&mut self, name: Name, constant: u32) {
        self.put(Order {
            name,
            kind: Kind::Number,
            number: constant,
        });
    }

    fn put_alone(&mut self, name: Name) {
        self.put(Order {
            name,
            kind: Kind::Nothing,
            number: 0,
        });
    }

    /// Puts a jump, and gives its place.
    fn put_jump(&mut self, name: Name, number: u32) -> usize {
        self.put(Order {
            name,
            kind: Kind::Address,
            number,
        });
        self.orders.len() - 1
    }

    /// "Branches and SKIPs lead to the order right after their part." Lets those of the innermost
    /// open part lead to the next order.
    fn close(&mut self) {
        let first = self.open.pop().expect("an open part");
        let next = self.place();
        for place in self.over.drain(first..) {
            self.orders[place].number = next;
        }
    }

    /// "GOTO s leads to the first order of s, or to the order after the last instruction."
    fn lead_gotos(&mut self, first_orders: &[u32]) {
        for place in &self.gotos {
            let order = &mut self.orders[*place];
            order.number = first_orders[order.number as usize - 1];
        }
    }

    /// The word of a temporary, which is used from now on.
    fn temporary(&mut self, number: u32) -> u32 {
        self.temporaries = self.temporaries.max(number + 1);
        self.first_temporary + number
    }

    /// An expression with `used` temporaries in use.
    fn expression(&mut self, place: Place, used: u32) {
        match self.sheet.node(place) {
            Node::Word(word) => self.put_on_word(Name::Load, word),
            Node::Constant(constant) => self.put_on_constant(Name::Load, constant),
            Node::Unary(sign, operand) => {
                self.expression(operand, used);
                self.put_alone(match sign {
                    Sign::Neg => Name::Neg,
                    Sign::Not => Name::Not,
                });
            }
            Node::Binary(operator, left, right) => {
                self.binary(name_of(operator), left, right, used);
            }
        }
    }

    /// "A binary with a plain right operand is the left, then the order on it. Otherwise, with d
    /// temporaries in use: left, STR temporary d, right with d+1 in use, STR temporary d+1, LOAD
    /// temporary d, order on d+1."
    fn binary(&mut self, name: Name, left: Place, right: Place, used: u32) {
        self.expression(left, used);
        match self.sheet.node(right) {
            Node::Word(word) => return self.put_on_word(name, word),
            Node::Constant(constant) => return self.put_on_constant(name, constant),
            _ => {}
        }
        let (first, second) = (self.temporary(used), self.temporary(used + 1));
        self.put_on_word(Name::Str, first);
        self.expression(right, used + 1);
        self.put_on_word(Name::Str, second);
        self.put_on_word(Name::Load, first);
        self.put_on_word(name, second);
    }

    fn simple(&mut self, simple: &Simple<Place>) {
        match simple {
            Simple::Set(word, value) => {
                self.expression(*value, 0);
                self.put_on_word(Name::Str, *word);
            }
            Simple::Send(value) => {
                self.expression(*value, 0);
                self.put_alone(Name::Send);
            }
            Simple::Goto(instruction) => {
                let place = self.put_jump(Name::Jmp, *instruction);
                self.gotos.push(place);
            }
        }
    }

    /// "The jump over an ELSE becomes a new order SKIP."
    fn line(&mut self, line: &Line) {
        match line {
            Line::Simple(simple) => self.simple(simple),
            Line::If(condition) => {
                self.open.push(self.over.len());
                self.condition(*condition);
            }
            Line::Else => {
                let skip = self.put_jump(Name::Skip, 0);
                self.close();
                self.open.push(self.over.len());
                self.over.push(skip);
            }
            Line::Finish => self.close(),
        }
    }
}

fn name_of(operator: Operator) -> Name {
    match operator {
        Operator::Add => Name::Add,
        Operator::Sub => Name::Sub,
        Operator::Mul => Name::Mlt,
        Operator::Div => Name::Div,
        Operator::Pow => Name::Exp,
        Operator::Shl => Name::Shl,
        Operator::Shr => Name::Shr,
        Operator::And => Name::And,
        Operator::Or => Name::Or,
        Operator::Xor => Name::Xor,
    }
}
