//! Wrong values for the lines of 10 and 12, near the right ones and far from them.

use crate::chance::Chance;
use crate::decks::build::Cards;
use crate::model::stop::{Above, Astray, Length, Mark};
use crate::model::word::MINUS;

/// Just above a bound, or far above it, also by what a smaller integer leaves out.
pub fn above(bound: u64, chance: &mut Chance) -> u64 {
    chance.pick(&[bound + 1, bound + 1, bound + (1 << 16), bound + (1 << 32), u64::MAX, 1 << 32])
}

pub fn wrong_length(length: Length, due: u64, chance: &mut Chance) -> u64 {
    match length {
        Length::Short => chance.pick_or(&[0, 1, due - 1, due - 1], 0, due - 1),
        Length::Multiple => due * chance.pick(&[2, 2, 2, 3, 10]),
        Length::Long => {
            let wrapped = if chance.one_in(8) { 1 << 16 } else { 1 << 8 };
            let near = [due + 1, due + 1, 2 * due + 1, due + wrapped];
            chance.pick_or(&near, due + 1, 2 * due - 1)
        }
    }
}

pub fn above_one(mark: Mark, chance: &mut Chance) -> u64 {
    match mark {
        Mark::Two => 2,
        Mark::Three => 3,
        Mark::Even => 2 * chance.pick_or(&[2, 2, 4, 8, 16, 32, 64, 127], 2, 127),
        Mark::Odd => 2 * chance.pick_or(&[2, 3, 63, 64, 127], 2, 127) + 1,
    }
}

/// Often a number that ends in a word.
pub fn no_word(by: Above, chance: &mut Chance) -> u64 {
    let word = chance.pick_or(&[0, 1, 454_000_000, 1_000_000_050], 0, MINUS - 1);
    match by {
        Above::Near => chance.pick(&[2 * MINUS, 2 * MINUS + word, 3 * MINUS - 1]),
        Above::Far => {
            let tens = chance.pick_or(&[3, 3, 4, 5, 10, 11, 100], 3, 1_000_000);
            let bits = chance.pick(&[1 << 35, 1 << 40, 1 << 63]);
            chance.pick(&[
                3 * MINUS,
                tens * MINUS,
                tens * MINUS + word,
                bits,
                bits + word,
                u64::MAX,
            ])
        }
    }
}

/// A good deck and a place where its reader may not stand, known from how the deck was put
/// together.
pub fn astray(place: Astray, chance: &mut Chance) -> (Vec<u8>, u64) {
    let before = match place {
        Astray::AtT { first: true } => 0..=0,
        Astray::AtT { first: false } | Astray::AtCardBeforeT { first: true } => 1..=4,
        Astray::AtCardBeforeT { first: false } => 2..=4,
        Astray::Within | Astray::PastEnd => 0..=4,
    };
    let deck = loop {
        let deck = Cards::any(chance);
        if before.contains(&deck.t) {
            break deck;
        }
    };
    let starts = deck.starts();
    let length = deck.bytes().len() as u64;
    let reader = match place {
        Astray::AtT { .. } => starts[deck.t],
        Astray::AtCardBeforeT { first: true } => 0,
        Astray::AtCardBeforeT { first: false } => chance.pick(&starts[1..deck.t]),
        Astray::Within => loop {
            let near = chance.pick(&starts) + chance.pick(&[1, 6, 11]);
            let reader = chance.pick_or(&[near, length - 1], 0, length - 1);
            if reader < length && !starts.contains(&reader) {
                break reader;
            }
        },
        Astray::PastEnd => length + chance.pick(&[1, 7, 22, 1 << 16, 1 << 32, u64::MAX - length]),
    };
    (deck.bytes(), reader)
}
