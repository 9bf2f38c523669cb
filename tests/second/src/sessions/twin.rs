//! The twin of a session: the same one with other numbers in the unmarked cells.

use super::message::{Begin, Cells, Message};
use crate::chance::Chance;

pub fn twin(session: &[Message], chance: &mut Chance) -> Vec<Message> {
    let exchanged = |message: &Message, chance: &mut Chance| match message {
        Message::Begin(begin) => Message::Begin(exchange(begin, chance)),
        other => other.clone(),
    };
    session.iter().map(|message| exchanged(message, chance)).collect()
}

/// A cell is unmarked when its mark is 0, or when the marks are too short to have one for it.
fn exchange(begin: &Begin, chance: &mut Chance) -> Begin {
    let marks = begin.marks.all();
    let unmarked = |cell: u64| marks.get(cell as usize).is_none_or(|&mark| mark == 0);
    let cells = match &begin.cells {
        Cells::Full(cells) => {
            let fresh = |(cell, &old)| if unmarked(cell as u64) { any(chance) } else { old };
            Cells::Full(cells.iter().enumerate().map(fresh).collect())
        }
        Cells::Sparse { length, .. } => {
            // With another fill, every marked cell needs a pair to keep its number.
            let old = begin.cells.all();
            let marked = (0..*length).filter(|&cell| !unmarked(cell));
            let mut pairs: Vec<(u64, u64)> =
                marked.map(|cell| (cell, old[cell as usize])).collect();
            for cell in begin.cells.named().into_iter().filter(|&cell| unmarked(cell)) {
                pairs.push((cell, any(chance)));
            }
            Cells::Sparse { length: *length, fill: any(chance), pairs }
        }
    };
    Begin { cells, ..begin.clone() }
}

/// Words, numbers that are no words, orders that would stop: whatever might be believed.
pub fn any(chance: &mut Chance) -> u64 {
    match chance.below(6) {
        0 => chance.next(),
        1 => u64::MAX - chance.below(3),
        2 => 20_000_000_000 + chance.below(3),
        3 => chance.below(100) * 100_000_000,
        _ => chance.below(20_000_000_000),
    }
}
