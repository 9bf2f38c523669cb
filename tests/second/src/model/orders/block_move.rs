//! MOVE of a block: as many words as A says, from B upward to C upward.

use super::{Effects, View};
use crate::model::card::LAST_CELL;
use crate::model::event::Way;
use crate::model::order::Order;
use crate::model::stop::{Field, Hole, Past, Reason};
use crate::model::word::Word;

/// Every line of 20 that holds: both blocks must lie in cells 1 to 999.
pub fn faults(order: Order) -> Vec<Reason> {
    let mut lines = vec![(order.b == 0, Reason::BlockFrom000), (order.c == 0, Reason::BlockTo000)];
    for field in [Field::B, Field::C] {
        let end = order.address(field) + order.a - 1;
        let past = if end == LAST_CELL + 1 { Past::ByOne } else { Past::Far };
        lines.push((end > LAST_CELL, Reason::BlockPast999(field, past)));
    }
    lines.into_iter().filter(|(holds, _)| *holds).map(|(_, reason)| reason).collect()
}

/// All words are read before any is stored. Any word will do, and cell 000 is not stored in.
pub fn move_block(order: Order, view: &View) -> Result<Effects, Reason> {
    if let Some(&reason) = faults(order).first() {
        return Err(reason);
    }
    let mut words: Vec<Word> = Vec::new();
    for at in 0..order.a {
        let word = view.drum.word(order.b + at);
        words.push(word.ok_or(Reason::SourceUnmarked(hole(at, order.a)))?);
    }
    Ok(Effects { stores: (order.c..).zip(words).collect(), ..Effects::only(view, Way::On) })
}

fn hole(at: u64, words: u64) -> Hole {
    match at {
        0 => Hole::First,
        _ if at + 1 == words => Hole::Last,
        _ => Hole::Middle,
    }
}
