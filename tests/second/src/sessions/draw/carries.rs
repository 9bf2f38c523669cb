//! Aims at ADD and SUB of an address: how far a carry or a borrow goes, the ends of the ten digits and
//! what lies past them.

use super::aim::Aimed;
use super::compare::with_live_box;
use super::draft::Draft;
use super::parts::{any_address, before, built, marked, result_cell};
use super::probe::TRACE_CARD;
use crate::chance::Chance;
use crate::decks::build::any_word;
use crate::model::event::{Event, Sum};
use crate::model::order::{worth, Change, Code, Order};
use crate::model::orders::address::carried;
use crate::model::stop::{Field, Past, FIELDS};
use crate::model::sums::stays_within;
use crate::model::word::{Word, MINUS};
use crate::sessions::reach::SUMS;

/// How far a sum goes.
#[derive(Clone, Copy)]
enum Reach {
    /// So many parts before the address become others.
    Parts(u64),
    /// To 9999999999, or to ten zeros.
    End,
    Past(Past),
}

impl Reach {
    /// Of a sum that is done.
    fn any(field: Field, chance: &mut Chance) -> Reach {
        if chance.one_in(6) {
            return Reach::End;
        }
        Reach::Parts(chance.below(field as u64 + 2))
    }

    fn any_past(chance: &mut Chance) -> Reach {
        Reach::Past(chance.pick(&[Past::ByOne, Past::Far]))
    }

    /// A C that goes so far.
    fn constant(self, chance: &mut Chance) -> u64 {
        let least = match self {
            Reach::Parts(0) => 0,
            Reach::Past(Past::Far) => 2,
            _ => 1,
        };
        chance.pick_or(&[least, 999], least, 999)
    }

    /// Ten digits with which a sum by this C goes so far.
    fn digits(self, change: Change, field: Field, c: u64, chance: &mut Chance) -> u64 {
        let shifted = c * worth(field);
        let added_to = match self {
            Reach::Parts(parts) => carrying(field, parts, c, chance),
            Reach::End => MINUS - 1 - shifted,
            Reach::Past(Past::ByOne) => MINUS - shifted,
            Reach::Past(Past::Far) => chance.between(MINUS + 1 - shifted, MINUS - 1),
        };
        // Taking from ten digits is adding to what they lack of 9999999999.
        match change {
            Change::Sub => MINUS - 1 - added_to,
            Change::Set | Change::Add => added_to,
        }
    }
}

/// Ten digits to which C is added: so many parts before the address are raised, and no more.
fn carrying(field: Field, parts: u64, c: u64, chance: &mut Chance) -> u64 {
    let (low, high) = if parts == 0 { (0, 999 - c) } else { (1_000 - c, 999) };
    let address = chance.pick_or(&[low, high], low, high);
    let mut order = Order::of_word(any_word(chance)).with_address(field, address);
    for (at, &before) in (1..).zip(FIELDS[..field as usize].iter().rev()) {
        if at < parts {
            order = order.with_address(before, 999);
        } else if at == parts {
            order = order.with_address(before, order.address(before).min(998));
        }
    }
    if parts == field as u64 + 1 {
        order.o1 = order.o1.min(8);
    }
    order.word().digits
}

/// A sum that is done.
pub fn done(change: Change, field: Field, draft: &mut Draft, chance: &mut Chance) -> Aimed {
    let reach = Reach::any(field, chance);
    reaching(change, field, reach, draft, chance)
}

/// One that is refused for the ten digits.
pub fn refused(
    change: Change,
    field: Field,
    past: Past,
    draft: &mut Draft,
    chance: &mut Chance,
) -> Aimed {
    reaching(change, field, Reach::Past(past), draft, chance)
}

fn reaching(
    change: Change,
    field: Field,
    reach: Reach,
    draft: &mut Draft,
    chance: &mut Chance,
) -> Aimed {
    let c = reach.constant(chance);
    let digits = reach.digits(change, field, c, chance);
    let b = marked(Word { minus: chance.percent(50), digits }, draft, chance);
    Aimed::of(built(Code::Change(change, field), 0, b, c))
}

/// What is told besides the sums themselves.
pub fn besides(event: Event, draft: &mut Draft, chance: &mut Chance) -> Aimed {
    let (any_change, any_field) = (chance.pick(&SUMS), chance.pick(&FIELDS));
    match event {
        Event::SumUntold { change, field } => {
            let aimed = reaching(change, field, Reach::any_past(chance), draft, chance);
            draft.marks.remove(&aimed.order.b);
            aimed
        }
        Event::DoneAsCarried(Change::Sub) => next_code(Change::Sub, Field::A, draft, chance),
        Event::DoneAsCarried(change) => next_code(change, any_field, draft, chance),
        Event::DigitsRefused { last, .. } => {
            let spare = if last { 0 } else { chance.between(1, 3) };
            let aimed = reaching(any_change, any_field, Reach::any_past(chance), draft, chance);
            Aimed { spare: Some(spare), ..aimed }
        }
        Event::SumWithin(false) => {
            let parts = chance.between(1, any_field as u64 + 1);
            reaching(any_change, any_field, Reach::Parts(parts), draft, chance)
        }
        _ => reaching(any_change, any_field, Reach::Parts(0), draft, chance),
    }
}

/// A sum that is done, or that is refused for the ten digits, with this about it.
pub fn aim(
    change: Change,
    field: Field,
    done: bool,
    sum: Sum,
    draft: &mut Draft,
    chance: &mut Chance,
) -> Aimed {
    match sum {
        Sum::OwnCell { within } => return own_cell(change, field, done, within, draft, chance),
        Sum::NextCode => return next_code(change, field, draft, chance),
        _ => {}
    }
    let (word, c) = operands(change, field, done, sum, chance);
    let b = if sum == Sum::Cell999 { 999 } else { draft.free(1, chance) };
    draft.put(b, word);
    let aimed = Aimed::of(built(Code::Change(change, field), 0, b, c));
    let count = chance.pick(&[1, 1, 2, 999]);
    match sum {
        Sum::At999 => Aimed { location: Some(999), ..aimed },
        Sum::BoxB => made([0, chance.between(1, b), chance.below(c + 1)], aimed),
        Sum::BoxC => made([0, chance.below(b + 1), chance.between(1, c)], aimed),
        Sum::LiveBox => with_live_box(field, count, aimed, chance),
        _ => aimed,
    }
}

fn made(counts: [u64; 3], aimed: Aimed) -> Aimed {
    Aimed { counts: Some(counts), modified: Some(true), ..aimed }
}

/// The word at B, and C.
fn operands(
    change: Change,
    field: Field,
    done: bool,
    sum: Sum,
    chance: &mut Chance,
) -> (Word, u64) {
    loop {
        let reach = match sum {
            Sum::Carried { parts, .. } => Reach::Parts(parts),
            Sum::AtEnd { .. } => Reach::End,
            Sum::C000 => Reach::Parts(0),
            _ if done => Reach::any(field, chance),
            _ => Reach::any_past(chance),
        };
        let c = match sum {
            Sum::C000 => 0,
            Sum::C999 => 999,
            _ => reach.constant(chance),
        };
        let digits = match sum {
            Sum::MinusZero => 0,
            _ => reach.digits(change, field, c, chance),
        };
        let minus = match sum {
            Sum::Carried { minus, .. } | Sum::AtEnd { minus } | Sum::Refused { minus } => minus,
            Sum::MinusZero | Sum::LiveBox => true,
            _ => chance.percent(50),
        };
        let word = Word { minus, digits };
        let fits = match sum {
            Sum::Number => word.number().is_some(),
            Sum::NoNumber => digits > 0 && word.number().is_none(),
            Sum::MinusZero | Sum::BoxC => c > 0,
            _ => true,
        };
        if fits {
            return (word, c);
        }
    }
}

/// The word at B is the order as it is stored.
fn own_cell(
    change: Change,
    field: Field,
    done: bool,
    within: bool,
    draft: &mut Draft,
    chance: &mut Chance,
) -> Aimed {
    let location = draft.free(1, chance);
    loop {
        let c = any_address(chance);
        let order = built(Code::Change(change, field), 0, location, c);
        let of = |address: u64| chance.pick(&[0, 0, address.min(1), address]);
        let counts = [order.a, order.b, order.c].map(of);
        let modified = chance.percent(50);
        let stored = if modified { before(order, counts) } else { Some(order) };
        let fits = |stored: Order| {
            let (word, constant) = (stored.word(), change.constant(c));
            carried(word, field, constant).is_ok() == done
                && stays_within(word, field, constant) == within
        };
        if stored.is_some_and(fits) {
            return Aimed {
                location: Some(location),
                counts: Some(counts),
                modified: Some(modified),
                ..Aimed::of(order)
            };
        }
    }
}

/// The sum changes O1 of the next order, which is done then: ADD makes a MOVE 000 of it, and SUB A a
/// TR C. What SUB B and SUB C make of it is left to chance.
fn next_code(change: Change, field: Field, draft: &mut Draft, chance: &mut Chance) -> Aimed {
    let location = draft.free(2, chance);
    let (digits, c) = match (change, field) {
        (Change::Sub, Field::A) => {
            let tested = marked(any_word(chance), draft, chance);
            let (b, to) = (any_address(chance), any_address(chance));
            (built(Code::Move000, 0, b, to).word().digits, 1_000 - tested)
        }
        (Change::Sub, _) => {
            let (reach, c) = (Reach::Parts(field as u64 + 1), chance.between(1, 999));
            (reach.digits(change, field, c, chance), c)
        }
        _ => {
            let to = result_cell(draft, chance) % 999;
            let c = chance.between(if field == Field::C { to + 1 } else { 1 }, 999);
            (built(Code::Move000, 0, 0, to).word().digits - c * worth(field), c)
        }
    };
    draft.put(location + 1, Word::plus(digits));
    Aimed {
        location: Some(location),
        room: Some(TRACE_CARD),
        spare: Some(chance.between(1, 2)),
        ..Aimed::of(built(Code::Change(change, field), 0, location + 1, c))
    }
}
