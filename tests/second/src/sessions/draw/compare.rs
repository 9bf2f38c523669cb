//! Aims at TR A, TR B and TR C.

use super::aim::Aimed;
use super::draft::Draft;
use super::moves::no_number;
use super::parts::{any_address, before, built, marked, unmarked};
use crate::chance::Chance;
use crate::decks::build::any_word;
use crate::model::event::Test;
use crate::model::order::{Code, Order};
use crate::model::stop::{Field, Reason, FIELDS};
use crate::model::word::Word;

/// B is the named address of the word at A, or it is not; with this about it, or with nothing.
pub fn aim(
    field: Field,
    equal: bool,
    test: Option<Test>,
    draft: &mut Draft,
    chance: &mut Chance,
) -> Aimed {
    if test == Some(Test::OwnCell) {
        return own_cell(field, equal, draft, chance);
    }
    let count = chance.pick(&[1, 1, 2, 999]);
    let (word, b) = loop {
        let word = word(test, chance);
        let tested = Order::of_word(word);
        let named = tested.address(field);
        let b = match test {
            Some(Test::B000) => 0,
            Some(Test::Other(other)) => tested.address(other),
            _ if equal => named,
            // What the box would make of it.
            Some(Test::LiveBox) if chance.percent(50) => (named + count) % 1_000,
            _ => other_than(named, &tested, chance),
        };
        let only = FIELDS.into_iter().filter(|&field| tested.address(field) == b).count() == 1;
        if (named == b) == equal && (test != Some(Test::OnlyNamed) || only) {
            break (word, b);
        }
    };
    let a = marked(word, draft, chance);
    let c = if test == Some(Test::C000) { 0 } else { any_address(chance) };
    let aimed = Aimed::of(built(Code::TrAddress(field), a, b, c));
    match test {
        Some(Test::LiveBox) => with_live_box(field, count, aimed, chance),
        Some(Test::At999) => Aimed { location: Some(999), ..aimed },
        _ => aimed,
    }
}

fn word(test: Option<Test>, chance: &mut Chance) -> Word {
    let any = match chance.below(3) {
        0 => any_word(chance),
        _ => {
            let [a, b, c] = [0; 3].map(|_| any_address(chance));
            Order { minus: chance.percent(50), o1: chance.below(10), a, b, c }.word()
        }
    };
    match test {
        Some(Test::Plus) => Word { minus: false, ..any },
        Some(Test::Minus) => Word { minus: true, digits: any.digits.max(1) },
        Some(Test::LiveBox) => Word { minus: true, ..any },
        Some(Test::MinusZero) => Word { minus: true, digits: 0 },
        Some(Test::NoNumber) => no_number(chance),
        _ => any,
    }
}

/// Another constant: the address but for one digit or a carry, another address of the word, or any.
fn other_than(named: u64, tested: &Order, chance: &mut Chance) -> u64 {
    let others = [tested.a, tested.b, tested.c];
    loop {
        let b = match chance.below(3) {
            0 => (named + chance.pick(&[1, 10, 100, 900, 990, 999])) % 1_000,
            1 => chance.pick(&others),
            _ => any_address(chance),
        };
        if b != named {
            return b;
        }
    }
}

/// The box has so high a count for the named address. It makes the order too, where it can.
pub fn with_live_box(field: Field, count: u64, aimed: Aimed, chance: &mut Chance) -> Aimed {
    let mut counts = [0; 3].map(|_| chance.pick(&[0, 0, 1, 999]));
    counts[field as usize] = count;
    let modified = before(aimed.order, counts).is_some() && chance.percent(70);
    Aimed { counts: Some(counts), modified: Some(modified), ..aimed }
}

/// The word at A is the order as it is stored.
fn own_cell(field: Field, equal: bool, draft: &mut Draft, chance: &mut Chance) -> Aimed {
    let location = draft.free(1, chance);
    loop {
        let counts = [0; 3].map(|_| chance.pick(&[0, 1, 2]));
        let [a, _, c] = counts;
        let to = any_address(chance);
        let b = match chance.below(3) {
            0 => location.saturating_sub(a),
            1 => to.saturating_sub(c),
            _ => any_address(chance),
        };
        let done = built(Code::TrAddress(field), location, b, to);
        let modified = chance.percent(50);
        let stored = if modified { before(done, counts) } else { Some(done) };
        if stored.is_some_and(|stored| (stored.address(field) == b) == equal) {
            return Aimed {
                location: Some(location),
                counts: Some(counts),
                modified: Some(modified),
                ..Aimed::of(done)
            };
        }
    }
}

/// A is 000, or its cell is not marked; often B is the address that would be found there.
pub fn refused(field: Field, reason: Reason, draft: &mut Draft, chance: &mut Chance) -> Aimed {
    let a = if reason == Reason::TestOf000 { 0 } else { unmarked(draft, chance) };
    let there = draft.values.get(&a).and_then(|&number| Word::of_cell(number));
    let b = match there {
        Some(word) if chance.percent(50) => Order::of_word(word).address(field),
        _ => any_address(chance),
    };
    Aimed::of(built(Code::TrAddress(field), a, b, any_address(chance)))
}
