//! Damaged decks for the program, as files with what it must say of each: a sweep with nothing of
//! chance in it.

use super::answer_of;
use super::damage::{put_judged, FOREIGN};
use super::seen::length;
use super::sentence::sentence;
use crate::files::Writing;
use crate::model::card::{highest, layout, DataCard, BODY, KINDS, LAST_CELL, TRANSFER};
use crate::model::deck::check;
use crate::model::word::Word;

/// A deck, and whether `list` is asked for it. That takes X and Z for kinds of cards.
struct Damaged {
    deck: Vec<u8>,
    listed: bool,
}

/// Writes the decks and what is due of each into a folder: `out` and `err`, the outputs of `deck`, and
/// `last`, the last line of `list`, which is empty for a good deck.
pub fn write(folder: &str) {
    for (number, Damaged { deck, listed }) in (1..).zip(all()) {
        let put = |ending: &str, bytes: &[u8]| {
            let mut file = Writing::create(&format!("{folder}/{number:04}.{ending}"));
            file.bytes(bytes);
            file.finish();
        };
        let checked = check(&deck);
        let (out, err, last) = match &checked {
            Ok(_) => ("good".to_string(), String::new(), String::new()),
            Err(bad) => {
                let ((number, place), said) = (answer_of(&checked), sentence(&deck, bad));
                (format!("{number} {place}"), format!("l1: {said}\n"), format!("{said}\n"))
            }
        };
        put("deck", &deck);
        put("out", out.as_bytes());
        put("err", err.as_bytes());
        if listed {
            put("last", last.as_bytes());
        }
    }
}

fn all() -> Vec<Damaged> {
    let mut decks = vec![cards(&KINDS), b"T001000".to_vec(), between(b"", b"")];
    decks.extend(bad_kinds());
    decks.extend(bad_bytes());
    decks.extend(cut_short());
    decks.extend(out_of_range());
    decks.extend(second_ts());
    decks.extend([Vec::new(), cards(b"1"), cards(b"54321")]);
    decks.extend(several_faults());
    decks.extend(far_places());
    let mut all: Vec<Damaged> =
        decks.into_iter().map(|deck| Damaged { deck, listed: true }).collect();
    for kind in ["X0001", "Z00"] {
        all.push(Damaged { deck: between(kind.as_bytes(), b""), listed: false });
    }
    all
}

/// A good card of the kind.
fn card(kind: u8) -> Vec<u8> {
    if kind == TRANSFER {
        return b"T101007".to_vec();
    }
    let count = (kind - b'0') as u64;
    let word = |i| Word { minus: i % 2 == 1, digits: 1_234_567_890 + i };
    let words = (0..count).map(word).collect();
    DataCard { number: count, location: 100 * count, words, problem: 7 }.text().into_bytes()
}

fn cards(kinds: &[u8]) -> Vec<u8> {
    kinds.iter().flat_map(|&kind| card(kind)).collect()
}

/// Something behind T and data cards, with more behind it.
fn between(bad: &[u8], behind: &[u8]) -> Vec<u8> {
    [&cards(b"2T3"), bad, behind].concat()
}

/// A card where it may stand: behind T, where it is not one, or before it.
fn placed(card: &[u8], behind_t: bool) -> Vec<u8> {
    match card[0] {
        TRANSFER => [&cards(b"41"), card, &cards(b"2")].concat(),
        _ if behind_t => between(card, &cards(b"1")),
        _ => [&cards(b"3"), card, &cards(b"T2")].concat(),
    }
}

/// Every byte that is no kind, but X and Z.
fn bad_kinds() -> Vec<Vec<u8>> {
    let no_kind = |byte: &u8| !KINDS.contains(byte) && !FOREIGN.contains(byte);
    let deck = |byte: u8| {
        let mut bad = card(KINDS[byte as usize % 5]);
        bad[0] = byte;
        placed(&bad, byte % 2 == 0)
    };
    (0..=u8::MAX).filter(no_kind).map(deck).collect()
}

/// Offsets in a card of the kind: all of the shortest and the longest, and of the others the first and
/// the last of each field, and both sides of a sign.
fn offsets(kind: u8) -> Vec<usize> {
    let layout = layout(kind).expect("a kind of card");
    let all = BODY..length(kind);
    if kind == b'5' || kind == TRANSFER {
        return all.collect();
    }
    let edge = |at: usize, other: usize| layout.get(other - BODY) != Some(&layout[at - BODY]);
    all.filter(|&at| at == BODY || edge(at, at - 1) || edge(at, at + 1)).collect()
}

/// At each of these offsets a byte that does not fit; the bytes take turns.
fn bad_bytes() -> Vec<Vec<u8>> {
    let mut bytes = (0..=u8::MAX).rev().cycle().step_by(3);
    let mut decks = Vec::new();
    for kind in KINDS {
        let layout = layout(kind).expect("a kind of card");
        for at in offsets(kind) {
            let mut bad = card(kind);
            let due = layout[at - BODY].1;
            bad[at] = bytes.find(|&byte| !due.fits(byte)).expect("there is no end of them");
            decks.push(placed(&bad, at % 2 == 0));
        }
    }
    decks
}

/// Decks that end before each of these offsets.
fn cut_short() -> Vec<Vec<u8>> {
    let mut decks = Vec::new();
    for kind in KINDS {
        for held in offsets(kind) {
            let before = if kind == TRANSFER || held % 2 == 0 { "14" } else { "5T1" };
            decks.push([&cards(before.as_bytes()), &card(kind)[..held]].concat());
        }
    }
    decks
}

/// Location and first order 000, and cards that go past 999 by one cell or by as many as can be.
fn out_of_range() -> Vec<Vec<u8>> {
    let mut decks = Vec::new();
    for kind in KINDS {
        // T and cards of one word go past 999 from nowhere, those of two from one location.
        let past = highest(kind) + 1..=LAST_CELL;
        let mut values = vec![0];
        values.extend(past.clone().take(1).chain(past.last()));
        values.dedup();
        for value in values {
            let mut bad = card(kind);
            put_judged(&mut bad, value);
            decks.extend([false, true].map(|behind_t| placed(&bad, behind_t)));
        }
    }
    // T has one place.
    decks.dedup();
    decks
}

/// Whole, cut short at each length, and with further faults.
fn second_ts() -> Vec<Vec<u8>> {
    let second = card(TRANSFER);
    let mut decks = vec![between(&second, &cards(b"1"))];
    decks.extend((1..second.len()).map(|held| between(&second[..held], b"")));
    decks.extend(
        ["T000007", "T1O1007", "T101007T101007", "T101007?"]
            .map(|bad| between(bad.as_bytes(), b"")),
    );
    decks
}

/// Of several faults one is told.
fn several_faults() -> Vec<Vec<u8>> {
    [
        // in one card
        "10001000+00000O0000x07",
        "1000x000",
        "20001999 1234567890+1234567890007",
        "T000x07",
        "T00",
        // in two cards
        "10001001+0000000000x07?",
        "10001000+0000000000007T101007T",
        "10001000+000000000000710001001+0000",
    ]
    .map(|bad| [&cards(b"1"), bad.as_bytes()].concat())
    .to_vec()
}

/// Card 98 and byte 4310; the longest decks of one-word cards, with a fault in the last card or without
/// T; and a deck that is too long.
fn far_places() -> Vec<Vec<u8>> {
    let before = [b"3".repeat(96), b"4".to_vec()].concat();
    let mut bad = card(b'3');
    bad[31] = b'O';
    let most = b"1".repeat(2_978);
    vec![
        [cards(&before), bad, card(TRANSFER)].concat(),
        cards(&most),
        [&cards(&most), "T10100O".as_bytes()].concat(),
        [&cards(&most), "T101007T".as_bytes()].concat(),
        [&cards(&most), "T10100710001".as_bytes()].concat(),
        [cards(&most), card(TRANSFER), card(b'1')].concat(),
    ]
}

#[cfg(test)]
mod tests {
    use super::*;
    use std::collections::BTreeMap;

    #[test]
    fn every_number_is_there() {
        let mut times: BTreeMap<u64, u64> = BTreeMap::new();
        for Damaged { deck, .. } in all() {
            *times.entry(answer_of(&check(&deck)).0).or_default() += 1;
        }
        let numbers: Vec<u64> = times.keys().copied().collect();
        assert_eq!(numbers, [0, 11, 13, 14, 15, 16, 17, 18], "{times:?}");
        assert!(all().len() <= 1_000, "{}", all().len());
    }

    #[test]
    fn the_deck_with_card_98() {
        let said = |deck: &[u8]| check(deck).err().map(|bad| sentence(deck, &bad));
        let wanted = "card 98, its third word: a digit is due at byte 4310, \
                      and the byte there is a letter O";
        assert!(all().iter().any(|damaged| said(&damaged.deck).as_deref() == Some(wanted)));
    }

    /// Where X or Z is told as no kind, `list` is not asked.
    #[test]
    fn what_list_takes_for_a_card() {
        for Damaged { deck, listed } in all() {
            let foreign = check(&deck).is_err_and(|bad| {
                answer_of(&Err(bad)).0 == 13 && FOREIGN.contains(&deck[bad.place])
            });
            assert_eq!(listed, !foreign);
        }
    }
}
