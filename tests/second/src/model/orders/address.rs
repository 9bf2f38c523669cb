//! The loop orders and the orders that change an address of a stored word or compare it.

use super::{used, Effects, View};
use crate::model::event::Way;
use crate::model::order::{worth, Change, Order, Sums};
use crate::model::state::State;
use crate::model::stop::{Field, Past, Reason};
use crate::model::word::{Word, MINUS};

/// Raises the named counts; while the largest of these is below B, goes to C, and otherwise clears
/// the whole box and goes on.
pub fn loop_orders(named: [bool; 3], order: Order, view: &View) -> Effects {
    let mut counts = view.state.counts;
    let mut largest = 0;
    for (count, named) in counts.iter_mut().zip(named) {
        if named {
            *count += 1;
            largest = largest.max(*count);
        }
    }
    let again = largest < order.b;
    let state = State { counts: if again { counts } else { [0; 3] }, ..*view.state };
    Effects { state, ..Effects::only(view, if again { Way::ToC } else { Way::On }) }
}

/// SET, ADD and SUB A, B, C: C is the constant, and one address of the word at B is changed. Its
/// sign stays.
pub fn change(change: Change, field: Field, order: Order, view: &View) -> Result<Effects, Reason> {
    if order.b == 0 {
        return Err(Reason::ChangeOf000);
    }
    let word = used(view, order, Field::B)?;
    let constant = change.constant(order.c);
    let changed = match (change, view.sums) {
        (Change::Set, _) => Order::of_word(word).with_address(field, order.c).word(),
        (_, Sums::Carry) => carried(word, field, constant)?,
        (_, Sums::Wrap) => wrapped(word, field, constant),
    };
    Ok(Effects { stores: vec![(order.b, changed)], ..Effects::only(view, Way::On) })
}

/// The constant, shifted to its address, is added to the ten digits without their sign.
pub fn carried(word: Word, field: Field, constant: i64) -> Result<Word, Reason> {
    let digits = word.digits as i64 + constant * worth(field) as i64;
    let past = if digits < 0 { -digits } else { digits + 1 - MINUS as i64 };
    match past {
        ..=0 => Ok(Word { digits: digits as u64, ..word }),
        1 => Err(Reason::DigitsPast(Past::ByOne)),
        _ => Err(Reason::DigitsPast(Past::Far)),
    }
}

/// Only the address is changed.
fn wrapped(word: Word, field: Field, constant: i64) -> Word {
    let target = Order::of_word(word);
    let address = (target.address(field) as i64 + constant).rem_euclid(1_000);
    target.with_address(field, address as u64).word()
}

/// TR A, B, C: B is the constant, and one address of the word at A is compared with it. The word is
/// taken as it is stored, whatever it is.
pub fn compare(field: Field, order: Order, view: &View) -> Result<Effects, Reason> {
    if order.a == 0 {
        return Err(Reason::TestOf000);
    }
    let tested = Order::of_word(used(view, order, Field::A)?);
    let equal = tested.address(field) == order.b;
    Ok(Effects::only(view, if equal { Way::On } else { Way::ToC }))
}
