//! Aims at PCH and READ: blocks of cells, and cards that fit them or do not.

use super::aim::Aimed;
use super::draft::Draft;
use super::parts::{any_address, built};
use crate::chance::Chance;
use crate::decks::build::{any_card, any_cards, any_word, transfer_card};
use crate::model::card::DataCard;
use crate::model::order::Code;
use crate::model::stop::{Reason, Turn};

/// Mostly a few cells, now and then many.
fn block_length(chance: &mut Chance) -> u64 {
    match chance.below(30) {
        0 => chance.between(11, 60),
        1..=8 => chance.between(5, 11),
        _ => chance.between(1, 5),
    }
}

/// The bytes that cards of five words, the last one with the rest, take for so many cells.
pub fn punched_length(cells: u64) -> u64 {
    cells.div_ceil(5) * 11 + cells * 11
}

/// A block of marked cells, with all the room it takes or a little more.
pub fn punched(draft: &mut Draft, chance: &mut Chance) -> Aimed {
    let (start, length) = marked_block(draft, chance);
    let room = punched_length(length) + chance.pick(&[0, 0, 1, 21, 100]);
    Aimed { room: Some(room), ..Aimed::of(built(Code::Pch, 0, start, start + length - 1)) }
}

fn marked_block(draft: &mut Draft, chance: &mut Chance) -> (u64, u64) {
    let length = block_length(chance);
    let start = draft.free(length, chance);
    for cell in start..start + length {
        draft.put(cell, any_word(chance));
    }
    (start, length)
}

/// A block that runs the wrong way or from 000.
fn bad_block(code: Code, reason: Reason, chance: &mut Chance) -> Aimed {
    let (b, c) = match reason {
        Reason::BlockFrom000 => (0, any_address(chance)),
        _ => {
            let b = chance.between(1, 999);
            let c = if chance.percent(50) { b - 1 } else { chance.below(b) };
            (b, c)
        }
    };
    Aimed::of(built(code, 0, b, c))
}

pub fn not_punched(reason: Reason, draft: &mut Draft, chance: &mut Chance) -> Aimed {
    match reason {
        Reason::NoRoomForPunch => {
            let (start, length) = marked_block(draft, chance);
            let whole = punched_length(length);
            let room = if chance.percent(50) { whole - 1 } else { chance.below(whole) };
            Aimed { room: Some(room), ..Aimed::of(built(Code::Pch, 0, start, start + length - 1)) }
        }
        Reason::BlockUnmarked => {
            let (start, length) = marked_block(draft, chance);
            let hole = start + chance.below(length);
            draft.marks.remove(&hole);
            let room = chance.pick(&[0, punched_length(length)]);
            Aimed { room: Some(room), ..Aimed::of(built(Code::Pch, 0, start, start + length - 1)) }
        }
        _ => bad_block(Code::Pch, reason, chance),
    }
}

/// READ of a block: its cards fit, or the first or a later one fails as the reason says.
pub fn read(reason: Option<Reason>, draft: &mut Draft, chance: &mut Chance) -> Aimed {
    if let Some(reason @ (Reason::BlockFrom000 | Reason::BlockBackward)) = reason {
        return Aimed {
            deck: Some(around(Vec::new(), false, chance)),
            ..bad_block(Code::Read, reason, chance)
        };
    }
    let turn = match reason {
        Some(Reason::CardElsewhere(turn) | Reason::CardPastBlock(turn) | Reason::NoCard(turn)) => {
            turn
        }
        _ => Turn::First,
    };
    let later = turn != Turn::First;
    let past = matches!(reason, Some(Reason::CardPastBlock(_)));
    let length = match turn {
        Turn::First if past => chance.between(1, 4),
        Turn::First => block_length(chance),
        Turn::Later => chance.between(2, 9),
        Turn::Late => chance.between(66, 80),
    };
    // Cells behind the block are kept for a card that passes its end.
    let start = draft.free(length + if past { 5 } else { 0 }, chance);
    if chance.percent(50) {
        draft.put(start, any_word(chance));
    }
    let mut cards = filling(start, length, later, chance);
    if past && !later {
        cards = vec![DataCard { location: start, ..any_card(chance, length) }];
    }
    let bad = match turn {
        Turn::First => 0,
        Turn::Later => 1 + chance.index(cards.len() - 1),
        Turn::Late => late(&cards, start, chance),
    };
    match reason {
        Some(Reason::CardElsewhere(_)) => cards[bad].location = elsewhere(&cards[bad], chance),
        Some(Reason::CardPastBlock(_)) => {
            let last = cards.pop().expect("a block takes a card");
            let words = chance.between(last.words.len() as u64 + 1, 5);
            cards.push(DataCard { location: last.location, ..any_card(chance, words) });
        }
        Some(Reason::NoCard(_)) => cards.truncate(bad),
        _ => {}
    }
    let ends = matches!(reason, Some(Reason::NoCard(_)));
    let last = start + length - 1;
    Aimed {
        deck: Some(around(cards, ends, chance)),
        ..Aimed::of(built(Code::Read, 0, start, last))
    }
}

/// Cards of chance that fill the block. If a later one is to fail, there are at least two, and the
/// last has fewer than five words.
pub fn filling(start: u64, length: u64, several: bool, chance: &mut Chance) -> Vec<DataCard> {
    let mut cards = Vec::new();
    let mut at = start;
    while at < start + length {
        let left = start + length - at;
        let most = if several && cards.is_empty() { left - 1 } else { left };
        let words = match left {
            5 if several => chance.between(1, 4),
            _ => chance.between(1, most.min(5)),
        };
        cards.push(DataCard { location: at, ..any_card(chance, words) });
        at += words;
    }
    cards
}

/// The index of a card that more than 60 cells lie before.
fn late(cards: &[DataCard], start: u64, chance: &mut Chance) -> usize {
    let first = cards.iter().position(|card| card.location - start > 60);
    let first = first.expect("a block of 66 cells or more ends with such a card");
    first + chance.index(cards.len() - first)
}

/// Another location for the card, often the next one.
fn elsewhere(card: &DataCard, chance: &mut Chance) -> u64 {
    let most = 1_000 - card.words.len() as u64;
    let near = [card.location - 1, card.location + 1];
    let other = if chance.percent(50) { chance.pick(&near) } else { chance.between(1, most) };
    if other == card.location || other < 1 || other > most {
        return if card.location == 1 { 2 } else { 1 };
    }
    other
}

/// A deck with these cards at the reader, behind T and a few others, and perhaps more behind them.
fn around(cards: Vec<DataCard>, ends: bool, chance: &mut Chance) -> (String, u64) {
    let mut deck = any_cards(chance, 1).concat();
    deck += &transfer_card(chance);
    deck += &any_cards(chance, 1).concat();
    let reader = deck.len() as u64;
    for card in cards {
        deck += &card.text();
    }
    if !ends {
        deck += &any_cards(chance, 2).concat();
    }
    (deck, reader)
}
