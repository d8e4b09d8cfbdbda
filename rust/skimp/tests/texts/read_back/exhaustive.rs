//! Every list of up to five of some orders, read back.

use skimp_reference::agree::{Compared, READ_BACK};
use skimp_reference::generate::every_list;
use skimp_reference::object::{Kind, Name, Order};
use skimp_reference::translate::Translation;

use crate::read_back_call;

fn order(name: Name, kind: Kind, number: u32) -> Order {
    Order { name, kind, number }
}

/// Orders on one variable and one constant, and jumps to all of `count` orders and STOP.
fn alphabet(count: usize) -> Vec<Order> {
    let mut orders = vec![
        order(Name::Neg, Kind::Nothing, 0),
        order(Name::Send, Kind::Nothing, 0),
        order(Name::Str, Kind::Word, 2),
        order(Name::Load, Kind::Word, 2),
        order(Name::Sub, Kind::Number, 0),
        order(Name::Cmp, Kind::Word, 2),
        order(Name::Cond, Kind::Number, 2),
    ];
    for address in 0..=count as u32 {
        orders.push(order(Name::Jmp, Kind::Address, address));
        orders.push(order(Name::Skip, Kind::Address, address));
        orders.push(order(Name::Bne, Kind::Address, address));
    }
    orders
}

/// How many sheets have so many orders before STOP, worked out by hand. With g jumps and 2^(m-1)
/// instructions SET and SEND of m orders, those of four orders are 8 of one instruction, 4 + 9g of
/// two, 6g^2 of three and g^4 of four; of five orders 16, 18 + 18g, 12g + 15g^2, 8g^3 and g^5; and g is
/// one more than the instructions.
const SHEETS: [usize; 6] = [1, 2, 11, 80, 760, 9152];

#[test]
fn every_list_of_orders() {
    let mut compared = Compared::new(READ_BACK, read_back_call);
    let mut buffer = vec![0; skimp::SHEET_MOST];
    let mut translation = Translation {
        variables: 1,
        temporaries: 0,
        orders: Vec::new(),
    };
    for (count, sheets) in SHEETS.into_iter().enumerate() {
        let (mut lists, mut accepted) = (0, 0);
        let alphabet = alphabet(count);
        every_list(&alphabet, count, |list| {
            translation.orders.clear();
            translation.orders.extend_from_slice(list);
            let object = translation.text().into_bytes();
            lists += 1;
            match skimp::read_back(&object, &mut buffer) {
                Ok(_) => {
                    accepted += 1;
                    assert_eq!(compared.check("every list", &object), Ok(()));
                }
                // all of them are good objects
                Err(refusal) => assert_eq!((refusal.number, refusal.place), (31, 0)),
            }
        });
        assert_eq!(lists, alphabet.len().pow(count as u32), "{count} orders");
        assert_eq!(accepted, sheets, "{count} orders");
    }
}
