//! Good cards and decks, built by chance.

use crate::chance::Chance;
use crate::model::card::DataCard;
use crate::model::word::{Word, MINUS};

pub fn any_word(chance: &mut Chance) -> Word {
    let digits = match chance.below(6) {
        0 => 0,
        1 => MINUS - 1,
        2 => chance.below(100),
        _ => chance.below(MINUS),
    };
    Word { minus: chance.percent(50), digits }
}

/// A card of that many words, now and then as near to 001 or 999 as it can be.
pub fn any_card(chance: &mut Chance, words: u64) -> DataCard {
    let last = 1_000 - words;
    let location = match chance.below(6) {
        0 => 1,
        1 => last,
        _ => chance.between(1, last),
    };
    let words = (0..words).map(|_| any_word(chance)).collect();
    DataCard { number: chance.below(10_000), location, words, problem: chance.below(1_000) }
}

pub fn transfer_card(chance: &mut Chance) -> String {
    let first_order = match chance.below(6) {
        0 => 1,
        1 => 999,
        _ => chance.between(1, 999),
    };
    format!("T{first_order:03}{:03}", chance.below(1_000))
}

/// The texts of some data cards of any kinds.
pub fn any_cards(chance: &mut Chance, most: u64) -> Vec<String> {
    let count = chance.below(most + 1);
    (0..count)
        .map(|_| {
            let words = chance.between(1, 5);
            any_card(chance, words).text()
        })
        .collect()
}

/// A deck as a list of cards, with the index of its T.
pub struct Cards {
    pub cards: Vec<String>,
    pub t: usize,
}

impl Cards {
    pub fn any(chance: &mut Chance) -> Cards {
        let mut cards = any_cards(chance, 4);
        let t = cards.len();
        cards.push(transfer_card(chance));
        cards.extend(any_cards(chance, 4));
        Cards { cards, t }
    }

    /// Every kind of card once before T and once behind it, beginning with that of `turn` + 1 words.
    pub fn every_kind(turn: u64, chance: &mut Chance) -> Cards {
        let mut cards = Vec::new();
        for side in 0..2 {
            for i in 0..5 {
                cards.push(any_card(chance, (i + turn) % 5 + 1).text());
            }
            if side == 0 {
                cards.push(transfer_card(chance));
            }
        }
        Cards { cards, t: 5 }
    }

    pub fn bytes(&self) -> Vec<u8> {
        self.cards.concat().into_bytes()
    }

    /// Where each card begins.
    pub fn starts(&self) -> Vec<u64> {
        let behind = |at: &mut u64, card: &String| {
            let start = *at;
            *at += card.len() as u64;
            Some(start)
        };
        self.cards.iter().scan(0, behind).collect()
    }

    /// An index from 0 to the number of cards.
    pub fn any_gap(&self, chance: &mut Chance) -> usize {
        chance.index(self.cards.len() + 1)
    }
}

/// A good deck of 65,534 bytes, the longest there is: a length is 7 and a multiple of 11.
pub fn longest(chance: &mut Chance) -> Cards {
    let mut cards = Vec::new();
    let mut left = 65_527 / 11;
    while left > 0 {
        // A card of n words is n + 1 elevens; a single eleven must never be left over.
        let words = match left {
            8.. => chance.between(1, 5),
            7 => 2,
            _ => left - 1,
        };
        cards.push(any_card(chance, words).text());
        left -= words + 1;
    }
    let t = chance.index(cards.len() + 1);
    cards.insert(t, transfer_card(chance));
    Cards { cards, t }
}

#[cfg(test)]
mod tests {
    use super::*;
    use crate::model::deck::check;

    #[test]
    fn built_decks_are_good() {
        let mut chance = Chance::new(5);
        for turn in 0..2_000 {
            assert!(check(&Cards::any(&mut chance).bytes()).is_ok());
            assert_eq!(
                check(&Cards::every_kind(turn, &mut chance).bytes()).map(|deck| deck.length),
                Ok(447)
            );
        }
        for _ in 0..20 {
            assert_eq!(check(&longest(&mut chance).bytes()).map(|deck| deck.length), Ok(65_534));
        }
    }
}
