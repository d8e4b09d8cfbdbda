//! The sheet that translates to given orders.
//!
//! The orders are carried out in place of values on expressions: the accumulator and the
//! temporaries hold what the value was worked out from. An order that ends a simple instruction or
//! a comparison gives it away. The branch of the last comparison tells where the part ends, and a
//! SKIP before that place that there is a second. Orders that no sheet translates to may get through
//! this, so the sheet that comes out is translated again and must give the same.

mod conditions;

use crate::compact::{Compact, Line, Node, Place};
use crate::limits::{MOST_LEVELS, MOST_NUMBER, MOST_TEMPORARIES};
use crate::object::{Kind, Name, Order, LINK_WORDS};
use crate::sheet::{Operator, Sheet, Sign, Simple};
use crate::translate::{translate_compact, within_limits, Translation};
use conditions::relation_of;

/// The one sheet whose translation this is, if there is one.
pub fn untranslate(translation: &Translation) -> Option<Sheet> {
    let sizes = [translation.variables, translation.temporaries];
    let sheet = untranslate_compact(sizes, &translation.orders)?;
    Some(sheet.sheet())
}

/// The same as a compact sheet, from V, T and the orders.
pub fn untranslate_compact(
    [variables, temporaries]: [u32; 2],
    orders: &[Order],
) -> Option<Compact> {
    let sheet = candidate(variables, orders)?;
    let again = translate_compact(&sheet);
    let is_same = again.temporaries == temporaries && again.orders == orders;
    (is_same && within_limits(&again)).then_some(sheet)
}

/// The only sheet that comes into question.
fn candidate(variables: u32, orders: &[Order]) -> Option<Compact> {
    let mut reader = Reader {
        first_temporary: LINK_WORDS + variables,
        orders,
        place: 0,
        open: Vec::with_capacity(MOST_LEVELS),
        sheet: Compact::new(variables),
    };
    reader.sheet.nodes.reserve(orders.len());
    let last = orders.len().checked_sub(1)?;
    // the number of the instruction whose first order it is, or 0
    let mut numbers = vec![0; orders.len()];
    let mut next = 1;
    loop {
        reader.close()?;
        *numbers.get_mut(reader.place)? = next;
        if reader.place == last {
            break;
        }
        reader.instruction()?;
        next += 1;
    }
    let mut sheet = reader.sheet;
    lead(&mut sheet, &numbers)?;
    reader.open.is_empty().then_some(sheet)
}

/// Puts instructions' numbers in place of the orders that the GOTOs lead to.
fn lead(sheet: &mut Compact, numbers: &[u32]) -> Option<()> {
    for target in sheet.lines.iter_mut().filter_map(Line::target) {
        *target = *numbers.get(*target as usize)?;
        if *target == 0 {
            return None;
        }
    }
    Some(())
}

/// What orders have been worked out for once one ends it.
enum Part {
    /// A GOTO has an order's place for now.
    Simple(Simple<Place>),
    Comparison(Read),
}

/// A comparison with its branch.
#[derive(Clone, Copy)]
struct Read {
    branch: Name,
    left: Place,
    right: Place,
    /// Where the branch leads.
    target: usize,
}

/// A part of an IF that is being read.
struct Open {
    /// The order after its last instruction.
    end: usize,
    /// That order is the SKIP over the second part.
    has_else: bool,
}

struct Reader<'a> {
    first_temporary: u32,
    orders: &'a [Order],
    place: usize,
    /// The innermost last.
    open: Vec<Open>,
    /// As far as it has been read.
    sheet: Compact,
}

impl Reader<'_> {
    /// Closes the parts that end here, and goes on to a second part where one follows.
    fn close(&mut self) -> Option<()> {
        while let Some(part) = self.open.last().filter(|part| part.end == self.place) {
            let has_else = part.has_else;
            self.open.pop();
            if !has_else {
                self.sheet.lines.push(Line::Finish);
                continue;
            }
            let past = self.orders[self.place].number as usize;
            self.place += 1;
            self.sheet.lines.push(Line::Else);
            self.open(past, false)?;
        }
        Some(())
    }

    /// Opens a part that begins here. "A group with no instruction ... is refusal 7", so no part is
    /// empty.
    fn open(&mut self, end: usize, has_else: bool) -> Option<()> {
        if end <= self.place || self.open.len() == MOST_LEVELS {
            return None;
        }
        self.open.push(Open { end, has_else });
        Some(())
    }

    /// Reads a simple instruction, or what an IF asks.
    fn instruction(&mut self) -> Option<()> {
        let first = self.sheet.pieces.len();
        let past = match self.orders.get(self.place)? {
            order if order.name == Name::Cond => self.joined(order.number as usize)?,
            _ => match self.part()? {
                Part::Simple(simple) => {
                    self.sheet.lines.push(Line::Simple(simple));
                    return Some(());
                }
                Part::Comparison(only) => self.alone(only)?,
            },
        };
        let condition = self.sheet.pieces_from(first);
        self.sheet.lines.push(Line::If(condition));
        // a second part is never empty, so a SKIP before the branch's target is that of this IF
        let before = self.orders.get(past.checked_sub(1)?)?;
        let has_else = before.name == Name::Skip;
        self.open(past - usize::from(has_else), has_else)
    }

    /// Carries out orders up to the one that ends a simple instruction or a comparison. It is inlined at
    /// both of its callers, since most of the time of reading back goes here.
    #[inline(always)]
    fn part(&mut self) -> Option<Part> {
        let mut held = Held::default();
        loop {
            let order = *self.orders.get(self.place)?;
            self.place += 1;
            match order.name {
                Name::Load => held.accumulator = Some(self.operand(order, &mut held)?),
                Name::Str if order.number >= self.first_temporary => {
                    held.put_away(order.number - self.first_temporary)?;
                }
                Name::Str if order.number < LINK_WORDS => return None,
                Name::Str => {
                    return Some(Part::Simple(Simple::Set(order.number, held.accumulator?)));
                }
                Name::Send => return Some(Part::Simple(Simple::Send(held.accumulator?))),
                Name::Jmp => return Some(Part::Simple(Simple::Goto(order.number))),
                Name::Neg => self.unary(Sign::Neg, &mut held)?,
                Name::Not => self.unary(Sign::Not, &mut held)?,
                Name::Cmp => {
                    let right = self.operand(order, &mut held)?;
                    held.compared = Some((held.accumulator.take()?, right));
                }
                Name::Skip | Name::Stop | Name::Cond => return None,
                name => {
                    if relation_of(name).is_some() {
                        let (left, right) = held.compared?;
                        return Some(Part::Comparison(Read {
                            branch: name,
                            left,
                            right,
                            target: order.number as usize,
                        }));
                    }
                    let right = self.operand(order, &mut held)?;
                    self.binary(operator_of(name)?, right, &mut held)?;
                }
            }
        }
    }

    /// What an order works on: a constant, a variable, or what a temporary holds.
    fn operand(&mut self, order: Order, held: &mut Held) -> Option<Place> {
        match (order.kind, order.number) {
            (Kind::Number, constant) if constant <= MOST_NUMBER => {
                Some(self.sheet.put(Node::Constant(constant)))
            }
            (Kind::Word, word) if word >= self.first_temporary => {
                let temporary = (word - self.first_temporary) as usize;
                held.temporaries.get_mut(temporary)?.take()
            }
            (Kind::Word, word) if word >= LINK_WORDS => Some(self.sheet.put(Node::Word(word))),
            _ => None,
        }
    }

    fn unary(&mut self, sign: Sign, held: &mut Held) -> Option<()> {
        let operand = held.accumulator?;
        held.accumulator = Some(self.sheet.put(Node::Unary(sign, operand)));
        Some(())
    }

    fn binary(&mut self, operator: Operator, right: Place, held: &mut Held) -> Option<()> {
        let left = held.accumulator?;
        held.accumulator = Some(self.sheet.put(Node::Binary(operator, left, right)));
        Some(())
    }
}

/// The expressions in place of the machine's values, by the places of their nodes.
#[derive(Default)]
struct Held {
    accumulator: Option<Place>,
    temporaries: [Option<Place>; MOST_TEMPORARIES as usize],
    /// What a CMP has compared.
    compared: Option<(Place, Place)>,
}

impl Held {
    /// Puts the accumulator's expression into a temporary.
    fn put_away(&mut self, temporary: u32) -> Option<()> {
        let value = self.accumulator.take()?;
        *self.temporaries.get_mut(temporary as usize)? = Some(value);
        Some(())
    }
}

fn operator_of(name: Name) -> Option<Operator> {
    Some(match name {
        Name::Add => Operator::Add,
        Name::Sub => Operator::Sub,
        Name::Mlt => Operator::Mul,
        Name::Div => Operator::Div,
        Name::Exp => Operator::Pow,
        Name::Shl => Operator::Shl,
        Name::Shr => Operator::Shr,
        Name::And => Operator::And,
        Name::Or => Operator::Or,
        Name::Xor => Operator::Xor,
        _ => return None,
    })
}
