//! Orders that should come to a given event, with the cells and cards that it takes.

use super::block;
use super::carries;
use super::compare;
use super::draft::Draft;
use super::loss;
use super::moves;
use super::parts::{any_address, before, built, marked, not_built, result_cell, shown_cell};
use super::parts::{strange_word, unmarked};
use super::unmoved;
use crate::chance::Chance;
use crate::decks::build::any_word;
use crate::model::event::{Event, Tracing, Way};
use crate::model::operation::{OfOne, OfTwo};
use crate::model::order::{Change, Code, Order};
use crate::model::stop::{Field, Reason};
use crate::model::word::{Word, MINUS};
use crate::numbers::{any_number, operands_for};

/// An order as it is to be done, and its surroundings.
pub struct Aimed {
    pub order: Order,
    /// A word that must be in cell 000 when the order is done.
    pub lead: Option<Word>,
    /// A deck of its own and where its reader stands.
    pub deck: Option<(String, u64)>,
    /// None where it is the same either way.
    pub switch_on_stop: Option<bool>,
    /// The loop box, where the aim depends on it.
    pub counts: Option<[u64; 3]>,
    /// The room that the order's own cards are to be given.
    pub room: Option<u64>,
    /// Where the order is to lie; the cell before it is for one that leads to it.
    pub location: Option<u64>,
    /// How many orders the budget has behind it.
    pub spare: Option<u64>,
    /// Whether the loop box is to make it, where the aim depends on that.
    pub modified: Option<bool>,
    /// The loop box with which the order as stored is to be done once more.
    pub again: Option<[u64; 3]>,
}

impl Aimed {
    pub fn of(order: Order) -> Aimed {
        Aimed {
            order,
            lead: None,
            deck: None,
            switch_on_stop: None,
            counts: None,
            room: None,
            location: None,
            spare: None,
            modified: None,
            again: None,
        }
    }
}

pub fn aim(event: Event, draft: &mut Draft, chance: &mut Chance) -> Aimed {
    match event {
        Event::Completed { code: Code::Loop(named), way, modified, .. } => {
            loop_aim(Code::Loop(named), named, way == Way::ToC, modified, chance)
        }
        Event::Completed { code: Code::OfTwo(operation), stopped, .. } if operation.is_sum() => {
            loss::sum(operation, stopped, draft, chance)
        }
        Event::Lost { loss, operation, .. } => loss::aim(loss, operation, draft, chance),
        Event::StoppedForLoss { .. } | Event::WentOnBehindLoss { .. } => {
            loss::stopping(event, draft, chance)
        }
        Event::Moved(moved) => moves::aim(moved, draft, chance),
        Event::MoveRefused { reason, unmarked } => {
            unmoved::refused_alone(reason, unmarked, draft, chance)
        }
        Event::Tested { field, equal, test } => {
            compare::aim(field, equal, Some(test), draft, chance)
        }
        Event::Summed { change, field, done, sum } => {
            carries::aim(change, field, done, sum, draft, chance)
        }
        Event::SumWithin(_)
        | Event::SumUntold { .. }
        | Event::DoneAsCarried(_)
        | Event::DigitsRefused { .. } => carries::besides(event, draft, chance),
        Event::Completed { code, way, stopped, tracing, .. } => {
            completed(code, way, stopped, tracing != Tracing::Plain, draft, chance)
        }
        Event::OrderRefused { code, reason, .. } => refused(code, reason, draft, chance),
        Event::Refused { reason: Reason::NotBuilt, .. } => Aimed::of(not_built(chance)),
        _ => Aimed::of(built(Code::Noop, 0, any_address(chance), any_address(chance))),
    }
}

pub fn number_of(operation: OfTwo) -> u64 {
    operation as u64
}

fn completed(
    code: Code,
    way: Way,
    stopped: bool,
    traced: bool,
    draft: &mut Draft,
    chance: &mut Chance,
) -> Aimed {
    match code {
        Code::OfTwo(operation) => {
            let words = operands_for(number_of(operation), chance, |outcome| outcome.is_ok());
            of_two(operation, words, draft, chance)
        }
        Code::OfOne(operation) => {
            let word = operands_for(5 + operation as u64, chance, |outcome| outcome.is_ok()).0;
            of_one(operation, word, draft, chance)
        }
        Code::Move000 => {
            let b = if chance.one_in(6) { 0 } else { marked(any_word(chance), draft, chance) };
            Aimed::of(built(code, 0, b, result_cell(draft, chance)))
        }
        Code::Move => moves::any(draft, chance),
        Code::TrAddress(field) => compare::aim(field, way == Way::On, None, draft, chance),
        Code::CondStop | Code::UncStop => {
            let order = built(code, 0, shown_cell(draft, chance), any_address(chance));
            let switch_on_stop = (code == Code::CondStop).then_some(stopped);
            Aimed { switch_on_stop, ..Aimed::of(order) }
        }
        Code::TrSgn => {
            let negative = way == Way::ToC;
            let digits = chance.pick(&[0, 1, MINUS - 1, 1_000_000_050, 99]);
            let word = match (negative, digits) {
                (true, digits) => Word { minus: true, digits: digits.max(1) },
                (false, 0) => Word { minus: chance.percent(70), digits },
                (false, digits) => Word { minus: false, digits },
            };
            Aimed {
                lead: Some(word),
                ..Aimed::of(built(code, 0, any_address(chance), any_address(chance)))
            }
        }
        Code::TrExp => {
            let word = any_word(chance);
            let exponent = word.digits % 100;
            let b = match (way == Way::ToC, chance.percent(50)) {
                (true, true) => exponent,
                (true, false) => chance.below(exponent + 1),
                (false, true) => exponent + 1,
                (false, false) => chance.between(exponent + 1, 999),
            };
            Aimed { lead: Some(word), ..Aimed::of(built(code, 0, b, any_address(chance))) }
        }
        Code::TrSubr => {
            let c = marked(any_word(chance), draft, chance);
            Aimed::of(built(code, 0, any_address(chance), c))
        }
        Code::Change(Change::Set, _) => {
            let b = marked(any_word(chance), draft, chance);
            Aimed::of(built(code, 0, b, any_address(chance)))
        }
        Code::Change(change, field) => carries::done(change, field, draft, chance),
        Code::Pch if !traced => block::punched(draft, chance),
        Code::Read => block::read(None, draft, chance),
        _ => Aimed::of(built(code, 0, any_address(chance), any_address(chance))),
    }
}

pub fn of_two(
    operation: OfTwo,
    (a, b): (Word, Word),
    draft: &mut Draft,
    chance: &mut Chance,
) -> Aimed {
    let through_000 = chance.one_in(6);
    let a_cell = if through_000 { 0 } else { marked(a, draft, chance) };
    let b_cell = if a == b && chance.percent(50) { a_cell } else { marked(b, draft, chance) };
    let order = built(Code::OfTwo(operation), a_cell, b_cell, result_cell(draft, chance));
    Aimed { lead: through_000.then_some(a), ..Aimed::of(order) }
}

fn of_one(operation: OfOne, word: Word, draft: &mut Draft, chance: &mut Chance) -> Aimed {
    let through_000 = chance.one_in(6);
    let b_cell = if through_000 { 0 } else { marked(word, draft, chance) };
    let order = built(Code::OfOne(operation), 0, b_cell, result_cell(draft, chance));
    Aimed { lead: through_000.then_some(word), ..Aimed::of(order) }
}

/// The largest named count, once raised, is below B or not; now and then by as little as can be.
fn loop_aim(
    code: Code,
    named: [bool; 3],
    again: bool,
    modified: bool,
    chance: &mut Chance,
) -> Aimed {
    loop {
        let most = chance.pick(&[1, 4, 999]);
        let most = if again { most.min(997) } else { most };
        let counts = [0; 3].map(|_| if chance.one_in(4) { most } else { chance.below(most + 1) });
        let raised = (0..3)
            .filter(|&i| named[i])
            .map(|i| counts[i] + 1)
            .max()
            .expect("a loop names a count");
        let b = match (again, chance.percent(50)) {
            (true, true) => raised + 1,
            (true, false) => chance.between(raised + 1, 999),
            (false, true) => raised.min(999),
            (false, false) => chance.below(raised.min(999) + 1),
        };
        let order = built(code, 0, b, any_address(chance));
        if !modified || before(order, counts).is_some() {
            return Aimed { counts: Some(counts), ..Aimed::of(order) };
        }
    }
}

fn refused(code: Code, reason: Reason, draft: &mut Draft, chance: &mut Chance) -> Aimed {
    match (code, reason) {
        (Code::OfTwo(operation), Reason::Unmarked(_) | Reason::NotNumber(_)) => {
            bad_operand(operation, reason, draft, chance)
        }
        (Code::OfTwo(operation), _) => {
            let words =
                operands_for(number_of(operation), chance, |outcome| outcome == Err(reason));
            of_two(operation, words, draft, chance)
        }
        (Code::OfOne(operation), Reason::NotNumber(_)) => {
            of_one(operation, strange_word(chance), draft, chance)
        }
        (Code::OfOne(operation), Reason::NegativeRoot) => {
            let word = operands_for(5, chance, |outcome| outcome == Err(reason)).0;
            of_one(operation, word, draft, chance)
        }
        (Code::TrSubr, Reason::SubroutineAt000) => {
            Aimed::of(built(code, 0, any_address(chance), 0))
        }
        (Code::TrSubr, _) => {
            let c = unmarked(draft, chance);
            Aimed::of(built(code, 0, any_address(chance), c))
        }
        (Code::Move, _) => unmoved::refused(reason, draft, chance),
        (Code::TrAddress(field), _) => compare::refused(field, reason, draft, chance),
        (Code::Pch, _) => block::not_punched(reason, draft, chance),
        (Code::Read, _) => block::read(Some(reason), draft, chance),
        (Code::Change(change, field), Reason::DigitsPast(past)) => {
            carries::refused(change, field, past, draft, chance)
        }
        (_, Reason::ChangeOf000) => Aimed::of(built(code, 0, 0, any_address(chance))),
        _ => {
            let b = unmarked(draft, chance);
            Aimed::of(built(code, 0, b, any_address(chance)))
        }
    }
}

/// One operand is as the reason says; the other may be good, or bad in a way that is judged later.
fn bad_operand(operation: OfTwo, reason: Reason, draft: &mut Draft, chance: &mut Chance) -> Aimed {
    let good = |chance: &mut Chance| Word::of_cell(any_number(chance)).expect("a number is a word");
    let any =
        |chance: &mut Chance| if chance.percent(50) { good(chance) } else { strange_word(chance) };
    let (a, b) = match reason {
        Reason::Unmarked(Field::A) => {
            let b = any(chance);
            let b =
                if chance.percent(50) { unmarked(draft, chance) } else { marked(b, draft, chance) };
            (unmarked(draft, chance), b)
        }
        Reason::Unmarked(_) => (marked(any(chance), draft, chance), unmarked(draft, chance)),
        Reason::NotNumber(Field::A) => {
            (marked(strange_word(chance), draft, chance), marked(any(chance), draft, chance))
        }
        _ => (marked(good(chance), draft, chance), marked(strange_word(chance), draft, chance)),
    };
    Aimed::of(built(Code::OfTwo(operation), a, b, result_cell(draft, chance)))
}
