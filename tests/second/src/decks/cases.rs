//! The decks: one for each index of a stream. A stream begins with a deck for each thing on the list of
//! all that a check can come to. Behind these some are aimed at that list again, some belong to a sweep
//! through all places of a deck, and the others are drawn by chance.

use std::sync::OnceLock;

use super::aim;
use super::build::{any_card, longest, transfer_card, Cards};
use super::damage::{damaged_somehow, long, TELLING};
use super::seen::{reachable, Seen};
use crate::chance::Chance;

/// Marks this stream apart from the others of the same seed.
const KIND: u64 = 2;

/// Of ten decks in a row, so many are of each sort; the rest are drawn.
const CYCLE: u64 = 10;
const AIMED: u64 = 3;
const SWEPT: u64 = 3;

/// The lengths of a deck with every kind of card on both sides of T, of a T card, and of a short deck
/// with one card on either side of it.
const EVERY_KIND: u64 = 447;
const T: u64 = 7;
const SHORT: u64 = 22 + T + 22;

/// Each telling byte at each place, in a second T as well; each byte at each place of the short deck;
/// each cut, within a second T as well.
const PLACES: u64 = EVERY_KIND + T;
const DAMAGES: u64 = PLACES * TELLING.len() as u64;
const BYTES: u64 = SHORT * 256;
const CUTS: u64 = PLACES + 1;
const SWEEP: u64 = DAMAGES + BYTES + CUTS;

pub fn case(seed: u64, index: u64) -> Vec<u8> {
    let chance = &mut Chance::of_case(seed, KIND, index);
    if let Some(deck) = first(index, chance) {
        return deck;
    }
    if let Some(&wanted) = aims().get((index - FIRST) as usize) {
        return aim::deck(wanted, chance);
    }
    let behind = index - FIRST - aims().len() as u64;
    let (round, turn) = (behind / CYCLE, behind % CYCLE);
    if turn < AIMED {
        let at = (round * AIMED + turn) as usize % aims().len();
        return aim::deck(aims()[at], chance);
    }
    if turn < AIMED + SWEPT {
        return swept(seed, round * SWEPT + turn - AIMED, chance);
    }
    drawn(chance)
}

pub fn aims() -> &'static [Seen] {
    static AIMS: OnceLock<Vec<Seen>> = OnceLock::new();
    AIMS.get_or_init(reachable)
}

/// How many named decks there are.
const FIRST: u64 = 9;

/// The first decks of every stream: the paper's own, and the lengths that a rule names.
fn first(index: u64, chance: &mut Chance) -> Option<Vec<u8>> {
    Some(match index {
        0 => {
            b"30001101+1200201202+0410202202+000020200000720002200+1000000050+2000000050007T101007"
                .to_vec()
        }
        1 => Vec::new(),
        2 => b"T000000".to_vec(),
        3 => b"T001000T000000".to_vec(),
        4 => longest(chance).bytes(),
        5 => vec![b'?'; 65_536],
        6 => vec![b'?'; 65_537],
        7 => [longest(chance).bytes(), b"10".to_vec()].concat(),
        8 => [longest(chance).bytes(), b"100".to_vec()].concat(),
        _ => return None,
    })
}

/// The steps are taken in a mixed order, so that a short stream sees something of each part. With each
/// sweep the kinds of cards take another turn.
fn swept(seed: u64, step: u64, chance: &mut Chance) -> Vec<u8> {
    const STRIDE: u64 = 10_007;
    let turn = step / SWEEP;
    let step = (step % SWEEP * STRIDE + seed % SWEEP) % SWEEP;
    if step < DAMAGES {
        let (place, byte) = (step % PLACES, TELLING[(step / PLACES) as usize]);
        let mut deck = up_to(place + 1, turn, chance);
        deck[place as usize] = byte;
        return deck;
    }
    let step = step - DAMAGES;
    if step < BYTES {
        let mut deck = short(chance).bytes();
        deck[(step % SHORT) as usize] = (step / SHORT) as u8;
        return deck;
    }
    let length = step - BYTES;
    let mut deck = up_to(length, turn, chance);
    deck.truncate(length as usize);
    deck
}

/// A deck with every kind of card, and a second T behind it where so many places need one.
fn up_to(places: u64, turn: u64, chance: &mut Chance) -> Vec<u8> {
    let mut deck = Cards::every_kind(turn, chance).bytes();
    if places > EVERY_KIND {
        deck.extend(transfer_card(chance).bytes());
    }
    deck
}

fn short(chance: &mut Chance) -> Cards {
    let cards = vec![any_card(chance, 1).text(), transfer_card(chance), any_card(chance, 1).text()];
    Cards { cards, t: 1 }
}

fn drawn(chance: &mut Chance) -> Vec<u8> {
    if chance.one_in(200) {
        return long(chance);
    }
    if chance.one_in(5) {
        return Cards::any(chance).bytes();
    }
    damaged_somehow(chance)
}

#[cfg(test)]
mod tests {
    use super::*;

    #[test]
    fn the_sweep_visits_every_step() {
        let visited: std::collections::BTreeSet<u64> =
            (0..SWEEP).map(|step| step * 10_007 % SWEEP).collect();
        assert_eq!(visited.len() as u64, SWEEP);
    }

    #[test]
    fn a_deck_depends_on_seed_and_index_alone() {
        for index in 0..50 {
            assert_eq!(case(3, index), case(3, index));
        }
    }
}
