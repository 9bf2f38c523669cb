//! Sums and differences of near equals: aims at the stop for lost digits, and at what comes near it.

use super::aim::{number_of, of_two, Aimed};
use super::draft::Draft;
use super::parts::{any_address, built};
use crate::chance::Chance;
use crate::model::arithmetic::OutOfRange;
use crate::model::event::{Event, Loss};
use crate::model::operation::{self, lost_below, OfTwo};
use crate::model::order::{Code, Order};
use crate::model::stop::Reason;
use crate::model::word::Word;
use crate::numbers::operands_for;

/// A sum that stops the run, or one that does not.
pub fn sum(operation: OfTwo, stopped: bool, draft: &mut Draft, chance: &mut Chance) -> Aimed {
    let words = operands_for(number_of(operation), chance, |outcome| {
        outcome.is_ok_and(|reckoned| !stopped || reckoned.lost > 2)
    });
    let many = operation::of_two(operation, words.0, words.1).is_ok_and(|sum| sum.lost > 2);
    Aimed { switch_on_stop: many.then_some(stopped), ..of_two(operation, words, draft, chance) }
}

pub fn aim(loss: Loss, operation: OfTwo, draft: &mut Draft, chance: &mut Chance) -> Aimed {
    let location = place(loss, draft, chance);
    let words = operands(loss, operation, chance);
    let aimed = of_two(operation, words, draft, chance);
    let c = match loss {
        Loss::Into000 => 0,
        Loss::OverItself => location,
        Loss::OverNext => location + 1,
        _ => aimed.order.c,
    };
    Aimed {
        order: Order { c, ..aimed.order },
        switch_on_stop: Some(loss != Loss::OnRun),
        location: Some(location),
        ..aimed
    }
}

/// A stop with orders left in the budget or with none, and behind it an order that can be done.
pub fn stopping(event: Event, draft: &mut Draft, chance: &mut Chance) -> Aimed {
    let operation = chance.pick(&[OfTwo::Add, OfTwo::Sub]);
    let loss = chance.pick(&[Loss::JustThree, Loss::Into000, Loss::OverItself]);
    let spare = match event {
        Event::StoppedForLoss { last: true, .. } => Some(0),
        Event::StoppedForLoss { last: false, .. } => Some(chance.between(1, 3)),
        _ => None,
    };
    Aimed { spare, ..aim(loss, operation, draft, chance) }
}

/// A cell for the order, behind one that is free and before an order that does nothing; or 999.
fn place(loss: Loss, draft: &mut Draft, chance: &mut Chance) -> u64 {
    if loss == Loss::At999 {
        return 999;
    }
    let start = draft.free(3, chance);
    draft.put_order(start + 2, built(Code::Noop, 0, any_address(chance), any_address(chance)));
    start + 1
}

fn operands(loss: Loss, operation: OfTwo, chance: &mut Chance) -> (Word, Word) {
    loop {
        let (a, b) = operands_for(number_of(operation), chance, |outcome| match (loss, outcome) {
            (Loss::BelowRange, outcome) => outcome == Err(Reason::Range(OutOfRange::Below)),
            (Loss::AllGone, Ok(sum)) => sum.word == Word::PLUS_ZERO,
            (Loss::JustTwo, Ok(sum)) => sum.lost == 2,
            (Loss::JustThree, Ok(sum)) => sum.lost == 3,
            (_, Ok(sum)) => sum.lost > 2,
            (_, Err(_)) => false,
        });
        let fits = match loss {
            Loss::BelowRange => lost_below(operation, a, b) > 2,
            Loss::AllGone => a != Word::PLUS_ZERO,
            _ => true,
        };
        if fits {
            return (a, b);
        }
    }
}
