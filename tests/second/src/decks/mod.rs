//! Differential testing of the deck check.

mod aim;
pub mod build;
mod cases;
mod damage;
pub mod damaged;
mod judge;
mod seen;
mod sentence;

use crate::chance::Chance;
use crate::files::{Reading, Writing};
use crate::model::deck::{check, BadDeck, Deck, Fault};
use crate::model::stop::Reason;

pub use judge::judge;

/// What a driver says of the deck and of the bytes around it: none was touched.
pub const UNHURT: u64 = 0;

/// A deck with this fault, from the decks of chance and from those that are aimed at something.
/// Over-long decks are made, not waited for.
pub fn with_fault(fault: Fault, chance: &mut Chance) -> Vec<u8> {
    if fault == Fault::TooLong {
        return vec![b'?'; 65_537 + chance.index(3)];
    }
    loop {
        let deck = if chance.percent(50) {
            damage::damaged_somehow(chance)
        } else {
            aim::deck(chance.pick(cases::aims()), chance)
        };
        if deck.len() < 1_000 && check(&deck).is_err_and(|bad| bad.fault == fault) {
            return deck;
        }
    }
}

/// The answer of the C call: 0 and 0, or the number and the place of the fault.
fn answer_of(checked: &Result<Deck, BadDeck>) -> (u64, u64) {
    match checked {
        Ok(_) => (0, 0),
        Err(bad) => (Reason::Deck(bad.fault).number(), bad.place as u64),
    }
}

pub fn write(seed: u64, count: u64, path: &str) {
    let mut out = Writing::create(path);
    for index in 0..count {
        let deck = cases::case(seed, index);
        out.bytes(&(deck.len() as u32).to_le_bytes());
        out.bytes(&deck);
    }
    out.finish();
}

/// The model in the place of the driver.
pub fn answer_all(cases: &str, answers: &str) {
    let mut input = Reading::open(cases);
    let mut out = Writing::create(answers);
    while !input.at_end() {
        let length = input.bytes(4).expect("the length of a deck");
        let length = u32::from_le_bytes([length[0], length[1], length[2], length[3]]);
        let deck = input.bytes(length as u64).expect("a whole deck");
        let (number, place) = answer_of(&check(&deck));
        out.numbers(&[number, place, UNHURT]);
    }
    out.finish();
}
