//! Decks that break a rule, or might seem to.

use super::build::{any_card, longest, transfer_card, Cards};
use crate::chance::Chance;
use crate::model::card::{highest, judged_field, Due, LAST_CELL};

/// Bytes that a check might take for a digit, a sign or a kind, bytes next to these, those that have
/// their highest bit set besides, and some of every other sort.
pub const TELLING: [u8; 36] = [
    b'0', b'9', b'/', b':', b'+', b'-', b',', b'.', b'*', b'T', b'S', b'U', b't', b'X', b'Z', b'O',
    b'l', b'1', b'2', b'3', b'4', b'5', b'6', b' ', b'\n', b'\r', b'\t', b'?', 0, 0x7F, 0x80, 0xAB,
    0xB0, 0xB1, 0xD4, 0xFF,
];

/// A byte that is not what is due.
pub fn unfit(due: Due, chance: &mut Chance) -> u8 {
    loop {
        let byte = any_byte(chance);
        if !due.fits(byte) {
            return byte;
        }
    }
}

pub fn any_byte(chance: &mut Chance) -> u8 {
    if chance.percent(50) {
        chance.pick(&TELLING)
    } else {
        chance.next() as u8
    }
}

/// Puts another location, or another first order, on a card.
pub fn put_judged(card: &mut [u8], value: u64) {
    let field = judged_field(card[0]);
    card[field].copy_from_slice(format!("{value:03}").as_bytes());
}

/// A location or a first order that a card of the kind must not have.
pub fn out_of_range(kind: u8, chance: &mut Chance) -> u64 {
    if highest(kind) < LAST_CELL && chance.percent(60) {
        past_999(kind, chance)
    } else {
        0
    }
}

/// A location from which the words of the kind, two at least, go past 999.
pub fn past_999(kind: u8, chance: &mut Chance) -> u64 {
    chance.between(highest(kind) + 1, LAST_CELL)
}

pub fn damaged_somehow(chance: &mut Chance) -> Vec<u8> {
    match chance.below(16) {
        0 | 1 => without_t(chance),
        2 | 3 => with_second_t(chance),
        4 | 5 => with_foreign_card(chance),
        6..=8 => with_bad_location(chance),
        9 => with_first_order_000(chance),
        10 => garbage(chance),
        11 | 12 => damaged(chance),
        13 => damaged_twice(chance),
        14 => cut(chance),
        _ => with_more_behind(chance),
    }
}

fn without_t(chance: &mut Chance) -> Vec<u8> {
    let mut deck = Cards::any(chance);
    deck.cards.remove(deck.t);
    deck.bytes()
}

fn with_second_t(chance: &mut Chance) -> Vec<u8> {
    let mut deck = Cards::any(chance);
    let gap = deck.any_gap(chance);
    deck.cards.insert(gap, transfer_card(chance));
    deck.bytes()
}

/// The kinds of cards that only a machine writes.
pub const FOREIGN: [u8; 2] = *b"XZ";

pub fn foreign_card(kind: u8) -> String {
    match kind {
        b'X' => format!("X0001001{}000", "+0000000000".repeat(6)),
        _ => "Z000103000003+3000000050".to_string(),
    }
}

/// Cards that only a machine writes, and kinds next to the good ones.
fn with_foreign_card(chance: &mut Chance) -> Vec<u8> {
    let mut deck = Cards::any(chance);
    let foreign = match chance.below(5) {
        0 | 1 => foreign_card(b'X'),
        2 => foreign_card(b'Z'),
        3 => foreign_card(b'X').replace('X', "6"),
        _ => format!("{}001000", chance.pick(&['t', 'U', 'D', 'S', '0', '6', ' '])),
    };
    let gap = deck.any_gap(chance);
    deck.cards.insert(gap, foreign);
    deck.bytes()
}

/// Location 000, or a last location past 999, on either side of T.
fn with_bad_location(chance: &mut Chance) -> Vec<u8> {
    let mut deck = Cards::any(chance);
    let words = chance.between(1, 5);
    let mut card = any_card(chance, words);
    card.location = out_of_range(b'0' + words as u8, chance);
    let gap = deck.any_gap(chance);
    deck.cards.insert(gap, card.text());
    deck.bytes()
}

/// In the only T, or in a second one.
fn with_first_order_000(chance: &mut Chance) -> Vec<u8> {
    let mut deck = Cards::any(chance);
    let bad = format!("T000{:03}", chance.below(1_000));
    if chance.percent(70) {
        deck.cards[deck.t] = bad;
    } else {
        deck.cards.push(bad);
    }
    deck.bytes()
}

fn garbage(chance: &mut Chance) -> Vec<u8> {
    let length = chance.below(12);
    let telling = chance.percent(50);
    (0..length).map(|_| if telling { chance.pick(&TELLING) } else { chance.next() as u8 }).collect()
}

fn damage(deck: &mut [u8], chance: &mut Chance) {
    let place = chance.index(deck.len());
    deck[place] = any_byte(chance);
}

fn damaged(chance: &mut Chance) -> Vec<u8> {
    let mut deck = Cards::any(chance).bytes();
    damage(&mut deck, chance);
    deck
}

fn damaged_twice(chance: &mut Chance) -> Vec<u8> {
    let mut deck = with_second_t(chance);
    damage(&mut deck, chance);
    damage(&mut deck, chance);
    deck
}

fn cut(chance: &mut Chance) -> Vec<u8> {
    let mut deck = Cards::any(chance).bytes();
    deck.truncate(chance.index(deck.len() + 1));
    deck
}

fn with_more_behind(chance: &mut Chance) -> Vec<u8> {
    let mut deck = Cards::any(chance).bytes();
    let more = if chance.percent(50) { garbage(chance) } else { cut(chance) };
    deck.extend(more);
    deck
}

/// Lengths about the longest: 65,534 is good, and 65,537 is judged by its length alone.
pub fn long(chance: &mut Chance) -> Vec<u8> {
    let mut deck = longest(chance);
    if chance.one_in(8) {
        deck.cards.remove(deck.t);
    }
    let mut bytes = deck.bytes();
    match chance.below(10) {
        0 => {}
        1 => damage(&mut bytes, chance),
        2 => bytes.truncate(65_534 - chance.index(70)),
        3..=8 => bytes.resize(65_534 + chance.index(5), chance.pick(&[b'1', b'T', b'?'])),
        _ => bytes = [bytes, any_card(chance, 5).text().into_bytes()].concat(),
    }
    bytes
}
