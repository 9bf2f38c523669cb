//! The sweep through the codes: the first digit of an order and the three behind it are ten
//! thousand combinations, and each is the code of the order that one session does in three ways.

use super::draft::Draft;
use super::layout::moderate;
use super::parts::{any_address, before, tempt};
use super::probe::TRACE_CARD;
use crate::chance::Chance;
use crate::decks::build::any_word;
use crate::model::order::Order;
use crate::model::state::State;
use crate::model::stop::FIELDS;
use crate::sessions::message::Message;

/// Marks this stream apart from the others of the same seed.
const KIND: u64 = 5;

/// How often each code is tried.
pub const RUNS: u64 = 3;

/// O1 is 0 with an O2 that no line names.
pub const NOT_BUILT: u64 = 970;

/// How often TR A, TR B and TR C must each find equal addresses, and unequal ones; and how often block
/// moves must be done. Nine in ten are, and their codes are some thousand with three runs each.
pub const EITHER_WAY: u64 = 800;
pub const MOVED: u64 = 2_400;

/// With more words a block leaves no cells for the orders.
const MOST: u64 = 996;

pub fn session(seed: u64, index: u64) -> Vec<Message> {
    let chance = &mut Chance::of_case(seed, KIND, index);
    let mut draft = Draft::new(chance);
    let (o1, a) = (index / 1_000 % 10, index % 1_000);
    let [first, second, third] = match (o1, a) {
        (6..=8, 1..) => tested(o1, a, &mut draft, chance),
        (9, 1..) => moved(a, &mut draft, chance),
        _ => [other(o1, a, &mut draft, chance); 3],
    };
    let addresses = [third.a, third.b, third.c];
    let counts = addresses.map(|address| chance.below(address.min(3) + 1));
    let minus = before(third, counts).unwrap_or(Order { minus: true, ..third });
    let stored = [first, second, minus];
    let orders = if o1 == 9 && a > MOST {
        let start = chance.between(1, MOST);
        [0, 1, 2].map(|at| {
            draft.put_order(start + at, stored[at as usize]);
            start + at
        })
    } else {
        stored.map(|order| draft.free_word(order.word(), chance))
    };

    let plain = State { problem: chance.below(1_000), reader: 7, ..State::default() };
    let traced = State { mode: 1, tracing: 1, ..plain };
    draft.begin(plain, chance);
    draft.deck("T001000");
    let room = TRACE_CARD + chance.pick(&[0, 100]);
    let stop = chance.below(2);
    let states = [plain, traced, chance.pick(&[plain, traced])];
    for (location, state) in orders.into_iter().zip(states) {
        draft.set_state(State { location, counts, ..state });
        draft.run(room, 1, stop);
    }
    draft.finish()
}

fn other(o1: u64, a: u64, draft: &mut Draft, chance: &mut Chance) -> Order {
    // A is often an operand, and then a number.
    if a != 0 && chance.percent(70) {
        draft.put(a, moderate(chance));
    }
    // No order stores where another one lies.
    let b = draft.free_word(moderate(chance), chance);
    let c = draft.free(1, chance);
    Order { minus: false, o1, a, b, c }
}

/// TR A, TR B, TR C: of the first two orders one finds equal addresses, and the other does not.
fn tested(o1: u64, a: u64, draft: &mut Draft, chance: &mut Chance) -> [Order; 3] {
    let [x, y, z] = [0; 3].map(|_| any_address(chance));
    let word = Order { minus: chance.percent(50), o1: chance.below(10), a: x, b: y, c: z };
    if chance.one_in(10) {
        draft.take(a, 1);
        tempt(a, draft, chance);
    } else {
        draft.put_order(a, word);
    }
    let named = word.address(FIELDS[o1 as usize - 6]);
    let unequal = loop {
        let b = chance.pick_or(&[x, y, z, named + 1], 0, 999) % 1_000;
        if b != named {
            break b;
        }
    };
    let c = any_address(chance);
    let [equal, unequal] = [named, unequal].map(|b| Order { minus: false, o1, a, b, c });
    let third = chance.pick(&[equal, unequal]);
    if chance.percent(50) {
        [equal, unequal, third]
    } else {
        [unequal, equal, third]
    }
}

/// A block of as many words as A says, which as a rule is marked. Both blocks and three orders have
/// cells of their own; where that cannot be, the words are moved to where they are.
fn moved(words: u64, draft: &mut Draft, chance: &mut Chance) -> [Order; 3] {
    let room = MOST.saturating_sub(words);
    let by = chance.pick_or(&[0, 1, room, words], 0, room).min(room);
    let start = chance.pick_or(&[1, 1_000 - words - by], 1, 1_000 - words - by);
    let (b, c) = if chance.percent(50) { (start, start + by) } else { (start + by, start) };
    for cell in b..b + words {
        draft.put(cell, any_word(chance));
    }
    for cell in c..c + words {
        draft.take(cell, 1);
    }
    let order = Order { minus: false, o1: 9, a: words, b, c };
    match chance.below(20) {
        0 => {
            draft.marks.remove(&(b + chance.below(words)));
            [order; 3]
        }
        1 => {
            let past = (1_001 - words).min(999);
            let bad = chance.pick(&[Order { b: past, ..order }, Order { c: past, ..order }]);
            chance.pick(&[[bad; 3], [order, bad, order]])
        }
        _ => [order; 3],
    }
}
