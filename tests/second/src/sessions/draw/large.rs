//! Sessions aimed at what is large: long blocks for READ, PCH and MOVE, blocks over the order itself,
//! far places of a deck, long outputs and high counts.

use super::block::{filling, punched_length};
use super::draft::Draft;
use super::parts::{any_address, built};
use super::probe::TRACE_CARD;
use crate::chance::Chance;
use crate::decks::build::{any_card, any_word, transfer_card};
use crate::model::card::DataCard;
use crate::model::deck::LONGEST;
use crate::model::event::Large;
use crate::model::order::Code;
use crate::model::state::State;
use crate::sessions::message::Message;

pub fn session(large: Large, chance: &mut Chance) -> Vec<Message> {
    let mut draft = Draft::new(chance);
    match large {
        Large::ReadOverItself | Large::ReadOfMany | Large::ReadOfHundreds | Large::ReadFar => {
            reading(large, &mut draft, chance)
        }
        Large::PchOverItself | Large::PchOfHundreds | Large::PchWraps => {
            punching(large, &mut draft, chance)
        }
        Large::MoveUp | Large::MoveDown | Large::MoveOfAll => moving(large, &mut draft, chance),
        Large::TracedOutput => long_trace(&mut draft, chance),
        Large::PunchedOutput => long_punch(&mut draft, chance),
        Large::CountAbove1000 => long_count(&mut draft, chance),
    }
    draft.finish()
}

/// A block of cells and the location of an order in it or outside.
struct Block {
    first: u64,
    last: u64,
    location: u64,
}

fn block(length: u64, over_itself: bool, chance: &mut Chance) -> Block {
    let first = chance.pick_or(&[1, 1_000 - length], 1, 1_000 - length);
    let last = first + length - 1;
    let location = loop {
        let location = chance.between(1, 999);
        if length == 999 || (first..=last).contains(&location) == over_itself {
            break location;
        }
    };
    Block { first, last, location }
}

fn reading(large: Large, draft: &mut Draft, chance: &mut Chance) {
    let length = match large {
        Large::ReadOfMany => chance.between(61, 255),
        Large::ReadOfHundreds => chance.pick_or(&[256, 998, 999], 256, 999),
        _ => chance.between(1, 60),
    };
    let over_itself = large == Large::ReadOverItself || chance.one_in(3);
    let Block { first, last, location } = block(length, over_itself, chance);
    draft.put_order(location, built(Code::Read, 0, first, last));
    let mut cards = filling(first, length, false, chance);
    for card in &mut cards {
        let words = (card.location..).zip(&mut card.words);
        for (_, word) in words.filter(|(cell, _)| *cell == location + 1 && chance.percent(70)) {
            *word = built(Code::UncStop, 0, first, 0).word();
        }
    }
    let cards: String = cards.iter().map(DataCard::text).collect();
    let mut deck = transfer_card(chance);
    if large == Large::ReadFar || chance.one_in(6) {
        far(&mut deck, LONGEST - cards.len(), chance);
    }
    let reader = deck.len() as u64;
    let tracing = chance.below(2);
    let state = State { location, reader, mode: tracing, tracing, ..State::default() };
    draft.begin(state, chance);
    draft.deck(deck + &cards);
    draft.run(2 * TRACE_CARD, 2, 0);
    // The cards are used up, or others than the block's come next.
    draft.set_state(State { location, ..draft.state() });
    draft.run(2 * TRACE_CARD, 1, 0);
}

/// Makes a deck longer than 40,000 bytes, and not longer than it may be.
fn far(deck: &mut String, most: usize, chance: &mut Chance) {
    let card = any_card(chance, 5).text();
    let length = chance.between(40_001, most as u64) as usize;
    while deck.len() <= 40_000 || deck.len() + card.len() <= length {
        *deck += &card;
    }
}

fn punching(large: Large, draft: &mut Draft, chance: &mut Chance) {
    let length = match large {
        Large::PchOfHundreds => chance.pick_or(&[256, 998, 999], 256, 999),
        Large::PchWraps => chance.between(6, 999),
        _ => chance.between(1, 300),
    };
    let over_itself = large == Large::PchOverItself || chance.one_in(3);
    let Block { first, last, location } = block(length, over_itself, chance);
    for cell in first..=last {
        draft.put(cell, any_word(chance));
    }
    draft.put_order(location, built(Code::Pch, 0, first, last));
    let beyond = punching_beyond(first, last, draft, chance);
    let cards = length.div_ceil(5);
    let counter = match large {
        Large::PchWraps => 9_999 - chance.between(1, cards - 1),
        _ => chance.pick_or(&[0, 9_998, 9_999], 0, 9_999),
    };
    let state = State { location, counter, problem: 7, reader: 7, ..State::default() };
    draft.begin(state, chance);
    draft.deck("T001000");
    let whole = punched_length(length);
    draft.run(whole - chance.pick(&[1, 1, 11, whole]), 1, 0);
    draft.run(whole + chance.pick(&[0, 0, 1, 300]), 1, 0);
    if let Some(location) = beyond {
        draft.set_state(State { location, ..draft.state() });
        draft.run(whole + 100, 1, 0);
    }
}

/// The location of a PCH of one cell more, which is not marked; none where cells are scarce.
fn punching_beyond(first: u64, last: u64, draft: &mut Draft, chance: &mut Chance) -> Option<u64> {
    let hole = last + 1;
    if last - first > 900 || hole == 1_000 || draft.marks.contains_key(&hole) {
        return None;
    }
    let mut location = hole;
    while location == hole {
        location = draft.free(1, chance);
    }
    draft.put_order(location, built(Code::Pch, 0, first, hole));
    Some(location)
}

/// A long block onto a part of itself, or all cells onto themselves. Of a block of one word more, which
/// is tried before, the last cell is not marked.
fn moving(large: Large, draft: &mut Draft, chance: &mut Chance) {
    let (words, b, c) = loop {
        let words = match large {
            Large::MoveOfAll => 999,
            _ => chance.pick_or(&[256, 998], 256, 998),
        };
        let last = 1_000 - words;
        let [b, c] = [0; 2].map(|_| chance.pick_or(&[1, last], 1, last));
        let lies = match large {
            Large::MoveUp => c > b,
            Large::MoveDown => c < b,
            _ => true,
        };
        if lies && b.abs_diff(c) < words {
            break (words, b, c);
        }
    };
    for cell in b..b + words {
        draft.put(cell, any_word(chance));
    }
    let location = chance.between(1, 999);
    draft.put_order(location, built(Code::Move, words, b, c));
    let beyond = moving_beyond(words, b, c, draft, chance);
    let tracing = chance.below(2);
    let state = State { location, reader: 7, mode: tracing, tracing, ..State::default() };
    draft.begin(state, chance);
    draft.deck("T001000");
    if let Some(location) = beyond {
        draft.set_state(State { location, ..state });
        draft.run(TRACE_CARD, 1, 0);
        draft.set_state(state);
    }
    draft.run(2 * TRACE_CARD, 2, 0);
}

/// The location of a move of one word more; none where cells are scarce.
fn moving_beyond(
    words: u64,
    b: u64,
    c: u64,
    draft: &mut Draft,
    chance: &mut Chance,
) -> Option<u64> {
    let hole = b + words;
    if words > 900 || hole.max(c + words) > 999 || !draft.take(hole, 1) {
        return None;
    }
    let location = draft.free(1, chance);
    draft.put_order(location, built(Code::Move, words + 1, b, c));
    Some(location)
}

/// Trace cards past 65,535 bytes, with a loop box that makes them all different.
fn long_trace(draft: &mut Draft, chance: &mut Chance) {
    let start = draft.free(2, chance);
    draft.put_order(start, built(Code::Loop([true, true, false]), 0, 999, start));
    draft.put_order(start + 1, built(Code::Tr, 0, any_address(chance), start));
    let counter = chance.below(10_000);
    let state =
        State { location: start, counter, reader: 7, mode: 1, tracing: 1, ..State::default() };
    draft.begin(state, chance);
    draft.deck("T001000");
    let cards = chance.between(852, 1_000);
    draft.run(cards * TRACE_CARD + chance.below(TRACE_CARD), cards + chance.below(2), 0);
    draft.run(65_536 + chance.below(TRACE_CARD), 2, 0);
}

/// Punched cards past 65,535 bytes.
fn long_punch(draft: &mut Draft, chance: &mut Chance) {
    let length = chance.between(500, 900);
    let Block { first, last, .. } = block(length, false, chance);
    for cell in first..=last {
        draft.put(cell, any_word(chance));
    }
    let start = draft.free(2, chance);
    draft.put_order(start, built(Code::Pch, 0, first, last));
    draft.put_order(start + 1, built(Code::Tr, 0, any_address(chance), start));
    let counter = chance.below(10_000);
    draft.begin(State { location: start, counter, reader: 7, ..State::default() }, chance);
    draft.deck("T001000");
    let once = punched_length(length);
    let times = 65_536_u64.div_ceil(once);
    draft.run(times * once + chance.pick(&[0, 1, once - 1]), 2 * times + 1, 0);
    draft.run(65_536 + chance.below(once), 1, 0);
}

/// Rounds of a loop and a transfer.
fn long_count(draft: &mut Draft, chance: &mut Chance) {
    let start = draft.free(3, chance);
    draft.put_order(start, built(Code::Noop, 0, 0, 0));
    draft.put_order(start + 1, built(Code::Loop([false, false, true]), 0, 999, start));
    draft.put_order(start + 2, built(Code::Tr, 0, 0, start));
    draft.begin(State { location: start, reader: 7, ..State::default() }, chance);
    draft.deck("T001000");
    draft.run(0, chance.pick_or(&[1_001, 1_024, 2_000], 1_001, 3_000), 0);
    draft.run(0, chance.pick(&[999, 1_000, 1_001]), 0);
}

#[cfg(test)]
mod tests {
    use super::*;
    use crate::model::event::Event;
    use crate::sessions::bench::Bench;
    use crate::sessions::reach::LARGE;

    #[test]
    fn every_aim_is_reached() {
        for seed in 0..40 {
            for large in LARGE {
                let mut seen = false;
                let mut bench = Bench::default();
                for message in session(large, &mut Chance::new(seed)) {
                    bench.feed(&message, &mut |event| seen |= event == Event::Large(large));
                }
                assert!(seen, "{large:?} with {seed}");
            }
        }
    }
}
