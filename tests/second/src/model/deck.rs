//! The deck check: the first fault and its place, or the deck taken apart.

use super::card::{read_card, BadCard, Card, CardFault, DataCard, TRANSFER};
use super::stop::Astray;

/// The longest deck, and the place told of a longer one.
pub const LONGEST: usize = 65_536;

#[derive(Clone, Copy, Debug, PartialEq, Eq, PartialOrd, Ord)]
pub enum Fault {
    /// Judged first and by the length alone.
    TooLong,
    Card(CardFault),
    /// Told by the kind byte alone, whatever follows.
    SecondT,
    /// Told only of a deck whose cards are all good.
    NoT,
}

/// A deck that breaks a rule.
#[derive(Clone, Copy, Debug, PartialEq, Eq)]
pub struct BadDeck {
    pub fault: Fault,
    /// The place that is told.
    pub place: usize,
    /// Where the first bad card begins, and how many good ones stand before it. Where no card is bad
    /// the first is the place, and of a deck that is too long no card is counted.
    pub start: usize,
    pub cards: usize,
}

/// A good deck.
#[derive(Clone, Debug, PartialEq, Eq)]
pub struct Deck {
    /// The cards before T, each with its start.
    pub before: Vec<(usize, DataCard)>,
    pub first_order: u64,
    pub problem: u64,
    pub t: usize,
    /// Where the cards for READ begin.
    pub behind_t: usize,
    /// The cards for READ, each with its start.
    pub after: Vec<(usize, DataCard)>,
    pub length: usize,
}

impl Deck {
    /// None for a reader at the start of a card behind T, or at the deck's end.
    pub fn astray(&self, reader: u64) -> Option<Astray> {
        let starts =
            |cards: &[(usize, DataCard)]| cards.iter().any(|(start, _)| *start as u64 == reader);
        if reader == self.length as u64 || starts(&self.after) {
            return None;
        }
        let first = reader == 0;
        Some(match reader {
            _ if reader > self.length as u64 => Astray::PastEnd,
            _ if reader == self.t as u64 => Astray::AtT { first },
            _ if starts(&self.before) => Astray::AtCardBeforeT { first },
            _ => Astray::Within,
        })
    }

    /// The card at the reader and the place behind it.
    pub fn card_at(&self, reader: usize) -> Option<(&DataCard, usize)> {
        let at = self.after.iter().position(|(start, _)| *start == reader)?;
        let behind = self.after.get(at + 1).map_or(self.length, |(start, _)| *start);
        Some((&self.after[at].1, behind))
    }
}

/// Takes a deck apart, card by card from its start.
pub fn check(deck: &[u8]) -> Result<Deck, BadDeck> {
    if deck.len() > LONGEST {
        return Err(BadDeck { fault: Fault::TooLong, place: LONGEST, start: LONGEST, cards: 0 });
    }
    let mut before = Vec::new();
    let mut transfer = None;
    let mut after = Vec::new();
    let (mut at, mut cards) = (0, 0);
    while at < deck.len() {
        let bad = |fault, byte| BadDeck { fault, place: at + byte, start: at, cards };
        if deck[at] == TRANSFER && transfer.is_some() {
            return Err(bad(Fault::SecondT, 0));
        }
        let (card, length) = read_card(&deck[at..])
            .map_err(|BadCard { fault, byte }| bad(Fault::Card(fault), byte))?;
        match card {
            Card::Data(card) if transfer.is_none() => before.push((at, card)),
            Card::Data(card) => after.push((at, card)),
            Card::Transfer { first_order, problem } => {
                transfer = Some((first_order, problem, at, at + length))
            }
        }
        at += length;
        cards += 1;
    }
    let (first_order, problem, t, behind_t) =
        transfer.ok_or(BadDeck { fault: Fault::NoT, place: at, start: at, cards })?;
    Ok(Deck { before, first_order, problem, t, behind_t, after, length: deck.len() })
}

#[cfg(test)]
mod tests {
    use super::*;
    use crate::model::stop::Reason;

    const CARD: &str = "10000001+0000000000000";

    /// Number and place, which are 0 and 0 for a good deck.
    fn told(deck: &str) -> (u64, usize) {
        let told = |bad: BadDeck| (Reason::Deck(bad.fault).number(), bad.place);
        check(deck.as_bytes()).map_or_else(told, |_| (0, 0))
    }

    #[test]
    fn where_a_reader_may_stand() {
        let deck = check(format!("{CARD}{CARD}T001000{CARD}").as_bytes()).expect("a good deck");
        let astray = |reader| deck.astray(reader);
        assert_eq!((astray(51), astray(73)), (None, None));
        assert_eq!(astray(44), Some(Astray::AtT { first: false }));
        assert_eq!(astray(0), Some(Astray::AtCardBeforeT { first: true }));
        assert_eq!(astray(22), Some(Astray::AtCardBeforeT { first: false }));
        assert_eq!((astray(50), astray(72)), (Some(Astray::Within), Some(Astray::Within)));
        assert_eq!(astray(74), Some(Astray::PastEnd));
        let alone = check(b"T001000").expect("a good deck");
        assert_eq!(alone.astray(0), Some(Astray::AtT { first: true }));
    }

    #[test]
    fn good_decks() {
        assert_eq!(told("T001000"), (0, 0));
        assert_eq!(told(&format!("{CARD}T001000{CARD}")), (0, 0));
        assert_eq!(told("T999999"), (0, 0));
    }

    #[test]
    fn each_number_and_its_place() {
        assert_eq!(told("T001000?"), (13, 7));
        assert_eq!(told("T001000Z000103000003+3000000050"), (13, 7));
        assert_eq!(told(&format!("X0001001{}000T001000", "+0000000000".repeat(6))), (13, 0));
        assert_eq!(told("T00100010000"), (14, 7));
        assert_eq!(told(&format!("{CARD}T00100")), (14, 22));
        assert_eq!(told("1000a001+0000000000000T001000"), (15, 4));
        assert_eq!(told("T0010001000a001+0000000000000"), (15, 11));
        assert_eq!(told("T00100010000001*0000000000000"), (15, 15));
        assert_eq!(told("T00100010000000+0000000000000"), (16, 12));
        assert_eq!(told("T00100020000999+0000000000+0000000000000"), (16, 12));
        assert_eq!(told(&format!("{CARD}T000000")), (16, 23));
        assert_eq!(told("T001000T001000"), (17, 7));
        assert_eq!(told(""), (18, 0));
        assert_eq!(told(CARD), (18, 22));
    }

    #[test]
    fn a_second_t_is_told_by_its_kind() {
        for second in ["T", "T00", "T00100", "T000000", "Txxxxxx", "T001000?"] {
            assert_eq!(told(&format!("{CARD}T001000{second}")), (17, 29));
        }
    }

    #[test]
    fn the_first_card_with_a_fault_is_told() {
        assert_eq!(told("?"), (13, 0));
        assert_eq!(told(&format!("{CARD}T001000T001000?")), (17, 29));
        assert_eq!(told("10000000+0000000000000?"), (16, 5));
        assert_eq!(told(&format!("{CARD}10000001+0000000000x00T000000")), (15, 41));
        assert_eq!(told(&format!("{CARD}T00000?T001000")), (15, 28));
    }

    #[test]
    fn how_many_good_cards_stand_before_it() {
        let cards = |deck: &str| check(deck.as_bytes()).map_err(|bad| (bad.start, bad.cards)).err();
        assert_eq!(cards("1000a001+0000000000000"), Some((0, 0)));
        assert_eq!(cards(&format!("{CARD}T001000T")), Some((29, 2)));
        assert_eq!(cards(&format!("{CARD}{CARD}T000000")), Some((44, 2)));
        assert_eq!(cards(&format!("{CARD}{CARD}")), Some((44, 2)));
    }

    #[test]
    fn length_is_judged_first() {
        assert_eq!(told(&"?".repeat(65_537)), (11, 65_536));
        assert_eq!(told(&"?".repeat(65_536)), (13, 0));
        let long = format!("{}T001000", CARD.repeat(2_978));
        assert_eq!((long.len(), told(&long)), (65_523, (0, 0)));
        assert_eq!(told(&format!("{long}{CARD}")), (11, 65_536));
        assert_eq!(told(&format!("{long}100010")), (14, 65_523));
    }
}
