//! Probes of refusals that come before an order's code is looked at.

use super::draft::Draft;
use super::parts::{any_address, built, unmarked};
use super::probe::{Probe, TRACE_CARD};
use crate::chance::Chance;
use crate::decks::build::any_word;
use crate::model::order::{Code, Order};
use crate::model::stop::{Field, Reason};

/// Refusals that come before the order's code is looked at.
pub fn refuse_early(probe: &mut Probe, reason: Reason, draft: &mut Draft, chance: &mut Chance) {
    match reason {
        Reason::Location000 | Reason::LocationPast999 if chance.percent(50) => {
            probe.location = if reason == Reason::Location000 { 0 } else { 1_000 };
        }
        Reason::Location000 => {
            draft.put_order(probe.location, built(Code::Tr, 0, any_address(chance), 0));
            go_on_behind(probe);
        }
        Reason::LocationPast999 => {
            probe.location = 999;
            draft.put_order(999, built(Code::Noop, 0, any_address(chance), any_address(chance)));
            go_on_behind(probe);
        }
        Reason::OrderUnmarked => probe.location = unmarked(draft, chance),
        Reason::SumAbove999(field) => sum_above_999(probe, None, field, draft, chance),
        Reason::NoRoomForTrace => {
            let short = chance.pick(&[1, 2, 77, 77]);
            probe.room = TRACE_CARD * probe.orders - short;
        }
        _ => {}
    }
}

/// The refusal is that of the next order.
fn go_on_behind(probe: &mut Probe) {
    probe.counts = [0; 3];
    probe.orders = 2;
    probe.room += TRACE_CARD;
}

/// One of the three sums passes 999, by one or by more, whether the order uses that address or not;
/// the others do not. The order has the given code, or any.
pub fn sum_above_999(
    probe: &mut Probe,
    code: Option<Code>,
    field: Field,
    draft: &mut Draft,
    chance: &mut Chance,
) {
    let order = loop {
        let (a, b, c) = (any_address(chance), any_address(chance), any_address(chance));
        let order = code.map_or(Order::of_word(any_word(chance)), |code| built(code, a, b, c));
        if order.address(field) > 0 {
            break Order { minus: true, ..order };
        }
    };
    let address = order.address(field);
    let count =
        if chance.percent(50) { 1_000 - address } else { chance.between(1_000 - address, 999) };
    let mut fitting =
        |address: u64| if chance.percent(50) { 0 } else { chance.below(1_000 - address) };
    let [a, b, c] = [order.a, order.b, order.c].map(&mut fitting);
    probe.counts = match field {
        Field::A => [count, b, c],
        Field::B => [a, count, c],
        Field::C => [a, b, count],
    };
    draft.put_order(probe.location, order);
}
