//! The two stops and the transfers.

use super::{used, Effects, View};
use crate::model::event::Way;
use crate::model::order::Order;
use crate::model::stop::{Field, Reason};
use crate::model::word::Word;

/// Goes to C either way; the switch decides whether the machine stops there and shows B's word.
pub fn cond_stop(order: Order, view: &View) -> Effects {
    let go = Effects::only(view, Way::ToC);
    if !view.switch_on_stop {
        return go;
    }
    Effects { stop: Some((Reason::CondStop, view.drum.shown(order.b))), ..go }
}

pub fn unc_stop(order: Order, view: &View) -> Effects {
    let stop = Some((Reason::UncStop, view.drum.shown(order.b)));
    Effects { stop, ..Effects::only(view, Way::Stays) }
}

/// The word in 000 by its sign alone, number or not; minus zero counts as not negative.
pub fn tr_sgn(view: &View) -> Effects {
    let last = cell_000(view);
    let negative = last.minus && last.digits != 0;
    Effects::only(view, if negative { Way::ToC } else { Way::ToB })
}

/// The last two digits in 000 against all three digits of B.
pub fn tr_exp(order: Order, view: &View) -> Effects {
    let exponent = cell_000(view).digits % 100;
    Effects::only(view, if exponent >= order.b { Way::ToC } else { Way::On })
}

/// Hands the return address B to the order at C, which also loses a minus.
pub fn tr_subr(order: Order, view: &View) -> Result<Effects, Reason> {
    if order.c == 0 {
        return Err(Reason::SubroutineAt000);
    }
    let first = Order::of_word(used(view, order, Field::C)?);
    let entered = Order { minus: false, c: order.b, ..first };
    Ok(Effects { stores: vec![(order.c, entered.word())], ..Effects::only(view, Way::ToC) })
}

fn cell_000(view: &View) -> Word {
    view.drum.word(0).expect("a run begins with cell 000 marked, and no mark is ever removed")
}
