//! The furniture of a drum for programs: blocks of cells and what they are good for.

use super::draft::Draft;
use super::parts::{any_address, strange_word};
use crate::chance::Chance;
use crate::decks::build::{any_card, any_cards, any_word, transfer_card};
use crate::model::card::DataCard;
use crate::model::word::{Number, Word};

/// The cells that READ is to fill.
pub const INBOX: u64 = 7;

pub struct Layout {
    pub program: u64,
    pub length: u64,
    /// Words that are numbers of moderate size.
    pub numbers: u64,
    /// Other words.
    pub strangers: u64,
    /// Unmarked cells.
    pub holes: u64,
    pub inbox: u64,
}

pub const NUMBERS: u64 = 12;
pub const STRANGERS: u64 = 5;
pub const HOLES: u64 = 6;

impl Layout {
    pub fn new(length: u64, draft: &mut Draft, chance: &mut Chance) -> Layout {
        Layout {
            program: draft.free(length, chance),
            length,
            numbers: draft.free(NUMBERS, chance),
            strangers: draft.free(STRANGERS, chance),
            holes: draft.free(HOLES, chance),
            inbox: draft.free(INBOX, chance),
        }
    }

    /// The words that belong into the blocks, apart from the program.
    pub fn words(&self, chance: &mut Chance) -> Vec<(u64, Word)> {
        let mut words: Vec<(u64, Word)> = Vec::new();
        let mut last = moderate(chance);
        for cell in self.numbers..self.numbers + NUMBERS {
            last = if chance.one_in(4) { near(last, chance) } else { moderate(chance) };
            words.push((cell, last));
        }
        for cell in self.strangers..self.strangers + STRANGERS {
            let word = if chance.percent(50) { strange_word(chance) } else { any_word(chance) };
            words.push((cell, word));
        }
        words
    }

    pub fn number(&self, chance: &mut Chance) -> u64 {
        self.numbers + chance.below(NUMBERS)
    }

    pub fn stranger(&self, chance: &mut Chance) -> u64 {
        self.strangers + chance.below(STRANGERS)
    }

    pub fn hole(&self, chance: &mut Chance) -> u64 {
        self.holes + chance.below(HOLES)
    }

    pub fn order(&self, chance: &mut Chance) -> u64 {
        self.program + chance.below(self.length)
    }

    /// An address whose word is to be used as a number.
    pub fn operand(&self, chance: &mut Chance) -> u64 {
        match chance.below(50) {
            0 | 1 => self.stranger(chance),
            2 => self.hole(chance),
            3 => self.order(chance),
            4 => any_address(chance),
            5..=9 => 0,
            _ => self.number(chance),
        }
    }

    /// An address to store a result at.
    pub fn result(&self, chance: &mut Chance) -> u64 {
        match chance.below(20) {
            0 => self.order(chance),
            1 => any_address(chance),
            2 => self.stranger(chance),
            3..=6 => self.hole(chance),
            7..=9 => 0,
            _ => self.number(chance),
        }
    }

    /// An address to go to.
    pub fn target(&self, chance: &mut Chance) -> u64 {
        match chance.below(25) {
            0 => self.hole(chance),
            1 => any_address(chance),
            _ => self.order(chance),
        }
    }

    /// The cards for READ: the inbox filled again and again, now and then wrongly.
    pub fn inbox_cards(&self, chance: &mut Chance) -> String {
        let mut cards = String::new();
        for _ in 0..chance.below(4) {
            let mut at = self.inbox;
            while at < self.inbox + INBOX {
                let words = chance.between(1, (self.inbox + INBOX - at).min(5));
                cards += &DataCard { location: at, ..any_card(chance, words) }.text();
                at += words;
            }
            if chance.one_in(6) {
                cards += &any_cards(chance, 1).concat();
            }
        }
        cards
    }

    /// A deck that holds only T and the cards for READ, and the reader behind its T.
    pub fn small_deck(&self, chance: &mut Chance) -> (String, u64) {
        let deck = transfer_card(chance);
        let reader = deck.len() as u64;
        (deck + &self.inbox_cards(chance), reader)
    }
}

/// The same number but for its last digits, and now and then for its sign.
fn near(word: Word, chance: &mut Chance) -> Word {
    let number = word.number().expect("a moderate number");
    if number.is_zero() {
        return word;
    }
    let step = 10u64.pow(chance.between(1, 6) as u32);
    let m = (number.m + chance.below(step)).min(99_999_999);
    Number { minus: number.minus ^ chance.one_in(4), m, ..number }.word()
}

/// A number between a millionth and a million, so that sums and products stay in range for a while.
pub fn moderate(chance: &mut Chance) -> Word {
    if chance.one_in(15) {
        return Word::PLUS_ZERO;
    }
    let m = match chance.below(3) {
        0 => chance.between(1, 9) * 10_000_000,
        1 => chance.between(100, 999) * 100_000,
        _ => chance.between(10_000_000, 99_999_999),
    };
    Number { minus: chance.one_in(3), m, a: chance.between(44, 56) }.word()
}
