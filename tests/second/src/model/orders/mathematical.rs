//! Codes 1 to 5, SQRT, ABS and MOVE 000: a result that is stored at C and at 000. A sum that has lost
//! its digits stops the run behind that.

use super::{used, Effects, View};
use crate::model::event::Way;
use crate::model::operation::{self, OfOne, OfTwo, Reckoned};
use crate::model::order::Order;
use crate::model::stop::{Field, Reason};
use crate::model::word::Word;

/// So many lost digits are still borne with the switch on STOP.
const BORNE: u64 = 2;

/// Both cells must be marked before either word is judged.
pub fn of_two(operation: OfTwo, order: Order, view: &View) -> Result<Effects, Reason> {
    let a = used(view, order, Field::A)?;
    let b = used(view, order, Field::B)?;
    let Reckoned { word, lost } = operation::of_two(operation, a, b)?;
    let stops = view.switch_on_stop && lost > BORNE;
    let stop = stops.then_some((Reason::DigitsLost, word));
    Ok(Effects { stop, ..result(word, order, view) })
}

pub fn of_one(operation: OfOne, order: Order, view: &View) -> Result<Effects, Reason> {
    let b = used(view, order, Field::B)?;
    Ok(result(operation::of_one(operation, b)?.word, order, view))
}

/// Any word is copied, be it a number or not.
pub fn move_000(order: Order, view: &View) -> Result<Effects, Reason> {
    let b = used(view, order, Field::B)?;
    Ok(result(b, order, view))
}

fn result(word: Word, order: Order, view: &View) -> Effects {
    Effects { stores: vec![(order.c, word), (0, word)], ..Effects::only(view, Way::On) }
}
