//! A deck for each thing that the check of a deck can come to.

use super::build::{any_card, any_cards, longest, transfer_card, Cards};
use super::damage::{any_byte, foreign_card, out_of_range, past_999, put_judged, unfit};
use super::seen::{length, Class, Place, Seen};
use crate::chance::Chance;
use crate::model::card::{judged_field, layout, CardFault, Due, BODY, KINDS, TRANSFER};

/// Good cards, before a card and behind it.
struct Around {
    before: Vec<u8>,
    behind: Vec<u8>,
}

impl Around {
    /// What makes a good deck with a card of the kind between them.
    fn a_card(kind: u8, chance: &mut Chance) -> Around {
        match kind {
            TRANSFER => Around::first_t(chance),
            _ => Around::data_card(chance.percent(50), chance),
        }
    }

    fn data_card(behind_t: bool, chance: &mut Chance) -> Around {
        let (with_t, without) = (Cards::any(chance).bytes(), cards(chance));
        let (before, behind) = if behind_t { (with_t, without) } else { (without, with_t) };
        Around { before, behind }
    }

    fn first_t(chance: &mut Chance) -> Around {
        Around { before: cards(chance), behind: cards(chance) }
    }

    /// Of a good T card between them they make a second one.
    fn second_t(chance: &mut Chance) -> Around {
        Around::data_card(true, chance)
    }

    fn deck(self, card: Vec<u8>) -> Vec<u8> {
        [self.before, card, self.behind].concat()
    }

    /// The deck ends with what is there of the card.
    fn cut(self, card: Vec<u8>) -> Vec<u8> {
        [self.before, card].concat()
    }
}

fn cards(chance: &mut Chance) -> Vec<u8> {
    any_cards(chance, 3).concat().into_bytes()
}

/// A good card of the kind.
fn card(kind: u8, chance: &mut Chance) -> Vec<u8> {
    match kind {
        TRANSFER => transfer_card(chance),
        _ => any_card(chance, (kind - b'0') as u64).text(),
    }
    .into_bytes()
}

fn data_kind(chance: &mut Chance) -> u8 {
    chance.pick(&KINDS[..5])
}

pub fn deck(wanted: Seen, chance: &mut Chance) -> Vec<u8> {
    match wanted {
        Seen::Good => Cards::any(chance).bytes(),
        Seen::TooLong { bad } => too_long(bad, chance),
        Seen::Card { fault, behind_t } => with_fault(fault, behind_t, chance),
        Seen::Found { due, class } => with_found(due, class, chance),
        Seen::Foreign { kind } => {
            let card = foreign_card(kind).into_bytes();
            Around::data_card(chance.percent(50), chance).deck(card)
        }
        Seen::Cut { kind, held } => {
            let mut card = card(kind, chance);
            card.truncate(held);
            Around::a_card(kind, chance).cut(card)
        }
        Seen::Misfit { kind, byte } => {
            let mut card = card(kind, chance);
            card[byte] = unfit(due_at(kind, byte), chance);
            Around::a_card(kind, chance).deck(card)
        }
        Seen::Misfits { first, later } => with_misfits(first, later, chance),
        Seen::Past { words } => {
            let kind = b'0' + words;
            let mut card = card(kind, chance);
            put_judged(&mut card, past_999(kind, chance));
            Around::a_card(kind, chance).deck(card)
        }
        Seen::SecondT { whole: true } => {
            let card = card(TRANSFER, chance);
            Around::second_t(chance).deck(card)
        }
        Seen::SecondT { whole: false } => {
            let mut card = card(TRANSFER, chance);
            card.truncate(BODY + chance.index(6));
            Around::second_t(chance).cut(card)
        }
        Seen::NoT { empty: true } => Vec::new(),
        Seen::NoT { empty: false } => {
            let last = card(data_kind(chance), chance);
            Around::first_t(chance).deck(last)
        }
        Seen::Over { told, untold } => with_two_faults(told, untold, chance),
        Seen::Before { told, untold } => with_two_bad_cards(told, untold, chance),
        Seen::NoTEither { told } => {
            let kind = data_kind(chance);
            let bad = bad_card(told, kind, chance);
            [cards(chance), bad].concat()
        }
    }
}

/// What is due at an offset of a card's body.
fn due_at(kind: u8, byte: usize) -> Due {
    layout(kind).expect("a kind of card")[byte - BODY].1
}

fn too_long(bad: bool, chance: &mut Chance) -> Vec<u8> {
    let mut deck = longest(chance).bytes();
    deck.extend(card(data_kind(chance), chance));
    if bad {
        deck[0] = unfit_kind(chance);
    }
    deck
}

fn unfit_kind(chance: &mut Chance) -> u8 {
    loop {
        let byte = any_byte(chance);
        if !KINDS.contains(&byte) {
            return byte;
        }
    }
}

fn with_fault(fault: CardFault, behind_t: bool, chance: &mut Chance) -> Vec<u8> {
    let kind = match fault {
        CardFault::FirstOrder000 => TRANSFER,
        CardFault::LastPast999 => chance.pick(b"2345"),
        _ => data_kind(chance),
    };
    let around = match kind {
        TRANSFER => Around::first_t(chance),
        _ => Around::data_card(behind_t, chance),
    };
    let mut card = card(kind, chance);
    match fault {
        CardFault::Kind => card[0] = unfit_kind(chance),
        CardFault::CutShort => {
            card.truncate(BODY + chance.index(length(kind) - BODY));
            return around.cut(card);
        }
        CardFault::NotDigit => card[chance.between(1, 7) as usize] = unfit(Due::Digit, chance),
        CardFault::NotSign => card[8] = unfit(Due::Sign, chance),
        CardFault::LastPast999 => put_judged(&mut card, past_999(kind, chance)),
        CardFault::Location000 | CardFault::FirstOrder000 => put_judged(&mut card, 0),
    }
    around.deck(card)
}

/// Two bytes of a card that do not fit.
fn with_misfits(first: Due, later: Due, chance: &mut Chance) -> Vec<u8> {
    let kind = chance.pick(b"2345");
    let mut card = card(kind, chance);
    let (left, right) = loop {
        let place = |chance: &mut Chance| BODY + chance.index(length(kind) - BODY);
        let (left, right) = (place(chance), place(chance));
        if left < right && (due_at(kind, left), due_at(kind, right)) == (first, later) {
            break (left, right);
        }
    };
    card[left] = unfit(first, chance);
    card[right] = unfit(later, chance);
    Around::a_card(kind, chance).deck(card)
}

/// A byte of the class where something else is due.
fn with_found(due: Place, class: Class, chance: &mut Chance) -> Vec<u8> {
    let byte = loop {
        let byte = chance.next() as u8;
        if Class::of(byte) == class && !(due == Place::Kind && KINDS.contains(&byte)) {
            break byte;
        }
    };
    let kind = match due {
        Place::Body(Due::Sign) => data_kind(chance),
        _ => chance.pick(&KINDS),
    };
    let mut card = card(kind, chance);
    let place = loop {
        let place = chance.index(card.len());
        let here = if place == 0 { Place::Kind } else { Place::Body(due_at(kind, place)) };
        if here == due {
            break place;
        }
    };
    card[place] = byte;
    Around::a_card(kind, chance).deck(card)
}

/// One card with two faults, of which the second is not told.
fn with_two_faults(told: u64, untold: u64, chance: &mut Chance) -> Vec<u8> {
    let kind = if told == 17 { TRANSFER } else { chance.pick(&KINDS) };
    let around = if told == 17 { Around::second_t(chance) } else { Around::a_card(kind, chance) };
    let mut card = card(kind, chance);
    let mut shown = BODY;
    if untold == 16 {
        put_judged(&mut card, out_of_range(kind, chance));
        shown = judged_field(kind).end;
    }
    if told == 15 || untold == 15 {
        // Not in the field that is judged for its range, and not the last byte, which is cut first.
        let place = if kind == TRANSFER { 4 } else { chance.pick(&[1, 4, 8, 9, 18, 19, 20]) };
        card[place] = unfit(due_at(kind, place), chance);
        shown = place + 1;
    }
    if told != 14 && untold != 14 {
        return around.deck(card);
    }
    card.truncate(shown + chance.index(card.len() - shown));
    around.cut(card)
}

/// A card of the kind with the fault of a number; the deck ends behind it where it is cut short.
fn bad_card(number: u64, kind: u8, chance: &mut Chance) -> Vec<u8> {
    let mut card = card(kind, chance);
    match number {
        13 => card[0] = unfit_kind(chance),
        14 => card.truncate(BODY + chance.index(card.len() - BODY)),
        15 => {
            let place = BODY + chance.index(card.len() - BODY);
            card[place] = loop {
                let byte = unfit(due_at(kind, place), chance);
                if byte != TRANSFER {
                    break byte;
                }
            }
        }
        16 => put_judged(&mut card, out_of_range(kind, chance)),
        _ => {}
    }
    card
}

/// Two bad cards side by side.
fn with_two_bad_cards(told: u64, untold: u64, chance: &mut Chance) -> Vec<u8> {
    let mut deck =
        if told == 17 || untold == 17 { Cards::any(chance).bytes() } else { cards(chance) };
    let behind_t = deck.contains(&TRANSFER);
    let first = match told {
        17 => TRANSFER,
        _ => data_kind(chance),
    };
    let second = match untold {
        17 => TRANSFER,
        _ if behind_t => data_kind(chance),
        _ => chance.pick(&KINDS),
    };
    deck.extend(bad_card(told, first, chance));
    deck.extend(bad_card(untold, second, chance));
    if untold != 14 {
        deck.extend(cards(chance));
    }
    deck
}

#[cfg(test)]
mod tests {
    use super::*;
    use crate::decks::seen::{reachable, seen};
    use crate::model::deck::check;

    #[test]
    fn every_aim_is_reached() {
        for wanted in reachable() {
            for seed in 0..40 {
                let deck = deck(wanted, &mut Chance::new(seed));
                let shown = seen(&deck, &check(&deck));
                let text = deck.escape_ascii();
                assert!(shown.contains(&wanted), "{wanted:?} with {seed}: {shown:?}: {text}");
            }
        }
    }
}
