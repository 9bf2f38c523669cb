//! Programs with a plan: loops, subroutines, branches, reading and punching, tracing; mostly loaded
//! from a deck, sometimes damaged.

use std::collections::BTreeMap;

use super::draft::Draft;
use super::layout::Layout;
use super::steer::steer;
use super::text::Text;
use crate::chance::Chance;
use crate::decks::build::any_word;
use crate::model::card::DataCard;
use crate::model::state::State;
use crate::model::word::{Word, MINUS};
use crate::sessions::message::Message;

/// Cells of a program; its parts never need as many.
const LENGTH: u64 = 60;

pub fn session(chance: &mut Chance) -> Vec<Message> {
    let mut draft = Draft::new(chance);
    let layout = Layout::new(LENGTH, &mut draft, chance);
    let mut words: BTreeMap<u64, Word> = layout.words(chance).into_iter().collect();
    let text = Text::any(&layout, chance);
    words.extend((layout.program..).zip(text.orders.iter().map(|order| order.word())));
    if chance.percent(20) {
        spoil(&mut words, chance);
    }
    if chance.percent(70) {
        loaded(&words, &layout, &mut draft, chance);
    } else {
        direct(&words, &layout, &mut draft, chance);
    }
    let runs = chance.between(3, 8);
    let end = layout.program + text.orders.len() as u64;
    steer(&mut draft, runs, layout.program..end, chance);
    draft.finish()
}

/// One word of the program or of its data is changed in a digit or in its sign, or left out.
fn spoil(words: &mut BTreeMap<u64, Word>, chance: &mut Chance) {
    let cells: Vec<u64> = words.keys().copied().collect();
    let cell = chance.pick(&cells);
    let Word { minus, digits } = words[&cell];
    match chance.below(4) {
        0 => {
            words.remove(&cell);
        }
        1 => {
            words.insert(cell, Word { minus: !minus, digits });
        }
        _ => {
            let step = 10u64.pow(chance.below(10) as u32) * chance.between(1, 9);
            words.insert(cell, Word { minus, digits: (digits + step) % MINUS });
        }
    }
}

/// The words come from a deck, onto a drum that has marks and strange cells already.
fn loaded(words: &BTreeMap<u64, Word>, layout: &Layout, draft: &mut Draft, chance: &mut Chance) {
    for _ in 0..chance.below(4) {
        let cell = chance.between(1, 999);
        draft.put(cell, any_word(chance));
    }
    let state = if chance.percent(50) { State::default() } else { strange_state(chance) };
    draft.begin(state, chance);
    let mut deck = String::new();
    if chance.percent(30) {
        deck += &overwritten(words, chance);
    }
    for card in cards(words, chance) {
        deck += &card.text();
    }
    deck += &format!("T{:03}{:03}", layout.program, chance.below(1_000));
    deck += &layout.inbox_cards(chance);
    draft.deck(deck);
    draft.load(chance.pick(&[0, 0, 1, 1, 2, u64::MAX]));
}

/// The words lie on the drum, marked, and only the cards for READ come from a deck.
fn direct(words: &BTreeMap<u64, Word>, layout: &Layout, draft: &mut Draft, chance: &mut Chance) {
    for (&cell, &word) in words {
        draft.put(cell, word);
    }
    let (deck, reader) = layout.small_deck(chance);
    let mode = chance.below(2);
    let tracing = mode * chance.below(2);
    let counter = chance.pick(&[0, 9_999]);
    let (location, problem) = (layout.program, chance.below(1_000));
    let state = State { location, counts: [0; 3], counter, problem, reader, mode, tracing };
    draft.begin(state, chance);
    draft.deck(deck);
}

/// Any numbers at all, which a load does not judge.
fn strange_state(chance: &mut Chance) -> State {
    State {
        location: chance.next(),
        counts: [0; 3].map(|_| chance.next()),
        counter: chance.next(),
        problem: chance.next(),
        reader: chance.next(),
        mode: chance.next(),
        tracing: chance.next(),
    }
}

/// Cards for cells whose words come again on a later card.
fn overwritten(words: &BTreeMap<u64, Word>, chance: &mut Chance) -> String {
    let cells: Vec<u64> = words.keys().copied().collect();
    let location = chance.pick(&cells);
    let card = DataCard { number: 0, location, words: vec![any_word(chance)], problem: 0 };
    card.text()
}

/// Cards for all words, each with as many as chance and the next hole allow.
fn cards(words: &BTreeMap<u64, Word>, chance: &mut Chance) -> Vec<DataCard> {
    let mut cards: Vec<DataCard> = Vec::new();
    let mut most = 5;
    for (&cell, &word) in words {
        if let Some(card) = cards.last_mut() {
            let joins = card.location + card.words.len() as u64 == cell && card.words.len() < most;
            if joins {
                card.words.push(word);
                continue;
            }
        }
        most = if chance.percent(70) { 5 } else { chance.between(1, 5) as usize };
        cards.push(DataCard {
            number: chance.below(10_000),
            location: cell,
            words: vec![word],
            problem: 0,
        });
    }
    cards
}
