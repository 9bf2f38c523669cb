//! PCH and READ: blocks of cells from B to C, and cards.

use super::{Effects, View};
use crate::model::card::DataCard;
use crate::model::event::Way;
use crate::model::order::Order;
use crate::model::state::State;
use crate::model::stop::{Reason, Turn};
use crate::model::trace::next_counter;
use crate::model::word::Word;

/// A block lies in cells 1 to 999 and is not empty.
fn block_of(order: Order) -> Result<(), Reason> {
    if order.b == 0 {
        return Err(Reason::BlockFrom000);
    }
    if order.b > order.c {
        return Err(Reason::BlockBackward);
    }
    Ok(())
}

/// Five cells a card, the last card holding what is left; each card counted before it is punched.
/// In traced mode the order does nothing and asks for nothing.
pub fn pch(order: Order, view: &View) -> Result<Effects, Reason> {
    if view.state.traced_mode() {
        return Ok(Effects::only(view, Way::On));
    }
    block_of(order)?;
    let words: Option<Vec<Word>> = (order.b..=order.c).map(|cell| view.drum.word(cell)).collect();
    let words = words.ok_or(Reason::BlockUnmarked)?;

    let mut state = *view.state;
    let mut punched = String::new();
    let mut location = order.b;
    for words in words.chunks(5) {
        state.counter = next_counter(state.counter);
        let card = DataCard {
            number: state.counter,
            location,
            words: words.to_vec(),
            problem: state.problem,
        };
        punched += &card.text();
        location += words.len() as u64;
    }
    if punched.len() > view.room {
        return Err(Reason::NoRoomForPunch);
    }
    Ok(Effects { state, punched, ..Effects::only(view, Way::On) })
}

/// Takes cards from the reader until the block is full. Each must begin where the last one ended
/// and not pass the block's end; the first that fails decides, and then none is taken.
pub fn read(order: Order, view: &View) -> Result<Effects, Reason> {
    block_of(order)?;
    let mut next = order.b;
    let mut reader = view.state.reader as usize;
    let mut stores = Vec::new();
    while next != order.c + 1 {
        let turn = Turn::behind(next - order.b);
        let (card, behind) = view.deck.card_at(reader).ok_or(Reason::NoCard(turn))?;
        if card.location != next {
            return Err(Reason::CardElsewhere(turn));
        }
        if next + card.words.len() as u64 > order.c + 1 {
            return Err(Reason::CardPastBlock(turn));
        }
        for &word in &card.words {
            stores.push((next, word));
            next += 1;
        }
        reader = behind;
    }
    let state = State { reader: reader as u64, ..*view.state };
    Ok(Effects { stores, state, ..Effects::only(view, Way::On) })
}
