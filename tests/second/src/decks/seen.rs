//! All that the check of a deck can come to: the list that the first decks of a stream are made for,
//! and that the judge requires.

use super::damage::{foreign_card, FOREIGN};
use crate::model::card::{highest, judged_field, layout, CardFault, Due, BODY, KINDS, TRANSFER};
use crate::model::deck::{BadDeck, Deck, Fault};

/// What is due at a byte of a deck.
#[derive(Clone, Copy, Debug, PartialEq, Eq, PartialOrd, Ord)]
pub enum Place {
    Kind,
    Body(Due),
}

/// Bytes that a check might take for others, or treat alike.
#[derive(Clone, Copy, Debug, PartialEq, Eq, PartialOrd, Ord)]
pub enum Class {
    Digit,
    Plus,
    Minus,
    T,
    Letter,
    Space,
    LineEnd,
    Zero,
    /// 47 and 58, the neighbours of the digits.
    BelowDigits,
    AboveDigits,
    Mark,
    Control,
    /// 128 and up.
    High,
}

const CLASSES: [Class; 13] = [
    Class::Digit,
    Class::Plus,
    Class::Minus,
    Class::T,
    Class::Letter,
    Class::Space,
    Class::LineEnd,
    Class::Zero,
    Class::BelowDigits,
    Class::AboveDigits,
    Class::Mark,
    Class::Control,
    Class::High,
];

impl Class {
    pub fn of(byte: u8) -> Class {
        match byte {
            b'0'..=b'9' => Class::Digit,
            b'+' => Class::Plus,
            b'-' => Class::Minus,
            b'T' => Class::T,
            b'A'..=b'Z' | b'a'..=b'z' => Class::Letter,
            b' ' => Class::Space,
            b'\n' => Class::LineEnd,
            0 => Class::Zero,
            b'/' => Class::BelowDigits,
            b':' => Class::AboveDigits,
            b'!'..=b'~' => Class::Mark,
            1..=127 => Class::Control,
            128.. => Class::High,
        }
    }
}

/// A deck may show several of these.
#[derive(Clone, Copy, Debug, PartialEq, Eq, PartialOrd, Ord)]
pub enum Seen {
    Good,
    /// 11, with a first card that has a fault or has none.
    TooLong {
        bad: bool,
    },
    /// 13 to 16, of a card before T or behind it.
    Card {
        fault: CardFault,
        behind_t: bool,
    },
    /// 13 and 15: what is found where a kind, a digit or a sign is due.
    Found {
        due: Place,
        class: Class,
    },
    /// 13: a whole card that only a machine writes.
    Foreign {
        kind: u8,
    },
    /// 14: so many bytes of a card of the kind are there.
    Cut {
        kind: u8,
        held: usize,
    },
    /// 15 at an offset in a card of the kind.
    Misfit {
        kind: u8,
        byte: usize,
    },
    /// 15 with another one behind it in the same card.
    Misfits {
        first: Due,
        later: Due,
    },
    /// 16: the last of so many cells is past 999.
    Past {
        words: u8,
    },
    SecondT {
        whole: bool,
    },
    NoT {
        empty: bool,
    },
    /// Of one card's faults the number that is told, and a later one that is not.
    Over {
        told: u64,
        untold: u64,
    },
    /// The number of the first bad card, and that of the card behind it, which is bad as well.
    Before {
        told: u64,
        untold: u64,
    },
    /// A bad card, and no T in the whole deck.
    NoTEither {
        told: u64,
    },
}

/// All that can be reached, each thing once. Those of which there are many stand last.
pub fn reachable() -> Vec<Seen> {
    use CardFault::*;
    let mut all = vec![Seen::Good];
    all.extend([false, true].map(|bad| Seen::TooLong { bad }));
    all.extend([false, true].map(|whole| Seen::SecondT { whole }));
    all.extend([false, true].map(|empty| Seen::NoT { empty }));
    for fault in [Kind, CutShort, NotDigit, NotSign, Location000, LastPast999] {
        all.extend([false, true].map(|behind_t| Seen::Card { fault, behind_t }));
    }
    // Behind T it would be a second one.
    all.push(Seen::Card { fault: FirstOrder000, behind_t: false });
    all.extend(FOREIGN.map(|kind| Seen::Foreign { kind }));
    all.extend((2..=5).map(|words| Seen::Past { words }));
    for (told, untold) in [(14, 15), (14, 16), (15, 16), (17, 14), (17, 15), (17, 16)] {
        all.push(Seen::Over { told, untold });
    }
    for told in [15, 16, 17] {
        all.extend([13, 14, 15, 16, 17].map(|untold| Seen::Before { told, untold }));
    }
    all.extend([13, 14, 15, 16].map(|told| Seen::NoTEither { told }));
    for first in [Due::Digit, Due::Sign] {
        all.extend([Due::Digit, Due::Sign].map(|later| Seen::Misfits { first, later }));
    }
    all.extend(found());
    for kind in KINDS {
        all.extend((BODY..length(kind)).map(|byte| Seen::Misfit { kind, byte }));
        all.extend((BODY..length(kind)).map(|held| Seen::Cut { kind, held }));
    }
    all
}

/// A class fits, and is left out, where one of its bytes does; but of the digits some are no kinds.
fn found() -> impl Iterator<Item = Seen> {
    let fits = |due, class| match due {
        Place::Kind => class == Class::T,
        Place::Body(Due::Digit) => class == Class::Digit,
        Place::Body(Due::Sign) => class == Class::Plus || class == Class::Minus,
    };
    [Place::Kind, Place::Body(Due::Digit), Place::Body(Due::Sign)].into_iter().flat_map(
        move |due| {
            let others = CLASSES.into_iter().filter(move |&class| !fits(due, class));
            others.map(move |class| Seen::Found { due, class })
        },
    )
}

/// The length of a card of a kind that decks hold.
pub fn length(kind: u8) -> usize {
    BODY + layout(kind).expect("a kind of card").len()
}

/// Everything that a deck shows, which was checked.
pub fn seen(deck: &[u8], checked: &Result<Deck, BadDeck>) -> Vec<Seen> {
    let &BadDeck { fault, place, start, .. } = match checked {
        Ok(_) => return vec![Seen::Good],
        Err(bad) => bad,
    };
    match fault {
        Fault::TooLong => vec![Seen::TooLong { bad: number_of(&deck[..], false).is_some() }],
        Fault::NoT => vec![Seen::NoT { empty: deck.is_empty() }],
        Fault::SecondT => of_card(fault, &deck[start..], place - start, true),
        Fault::Card(of) => {
            let behind_t = holds_t(&deck[..start]);
            let mut all = of_card(fault, &deck[start..], place - start, behind_t);
            all.push(Seen::Card { fault: of, behind_t });
            if !deck.contains(&TRANSFER) {
                all.push(Seen::NoTEither { told: numbers(&deck[start..], behind_t)[0] });
            }
            all
        }
    }
}

/// What is shown by the first bad card, at the start of `rest`; `byte` is the offset told in it.
fn of_card(fault: Fault, rest: &[u8], byte: usize, behind_t: bool) -> Vec<Seen> {
    let kind = rest[0];
    let found = |due| Seen::Found { due, class: Class::of(rest[byte]) };
    let mut all = match fault {
        Fault::SecondT => vec![Seen::SecondT { whole: rest.len() >= length(kind) }],
        Fault::Card(CardFault::Kind) => {
            let foreign = FOREIGN.contains(&kind) && rest.len() >= foreign_card(kind).len();
            return [found(Place::Kind)]
                .into_iter()
                .chain(foreign.then_some(Seen::Foreign { kind }))
                .collect();
        }
        Fault::Card(CardFault::CutShort) => vec![Seen::Cut { kind, held: rest.len() }],
        Fault::Card(CardFault::NotDigit) => {
            vec![Seen::Misfit { kind, byte }, found(Place::Body(Due::Digit))]
        }
        Fault::Card(CardFault::NotSign) => {
            vec![Seen::Misfit { kind, byte }, found(Place::Body(Due::Sign))]
        }
        Fault::Card(CardFault::LastPast999) => vec![Seen::Past { words: kind - b'0' }],
        _ => vec![],
    };
    let misfits = misfits(rest);
    if let (Fault::Card(CardFault::NotDigit | CardFault::NotSign), [first, later, ..]) =
        (fault, &misfits[..])
    {
        all.push(Seen::Misfits { first: *first, later: *later });
    }
    let numbers = numbers(rest, behind_t);
    let told = numbers[0];
    all.extend(numbers[1..].iter().map(|&untold| Seen::Over { told, untold }));
    let later =
        rest.get(length(kind)..).and_then(|rest| number_of(rest, behind_t || kind == TRANSFER));
    all.extend(later.map(|untold| Seen::Before { told, untold }));
    all
}

fn number_of(rest: &[u8], behind_t: bool) -> Option<u64> {
    numbers(rest, behind_t).first().copied()
}

/// Every number whose line holds of the card at the start of `rest`, in the order of the lines.
fn numbers(rest: &[u8], behind_t: bool) -> Vec<u64> {
    let Some(&kind) = rest.first() else { return vec![] };
    if !KINDS.contains(&kind) {
        return vec![13];
    }
    let lines = [
        (17, kind == TRANSFER && behind_t),
        (14, rest.len() < length(kind)),
        (15, !misfits(rest).is_empty()),
        (16, out_of_range(rest)),
    ];
    lines.into_iter().filter(|line| line.1).map(|line| line.0).collect()
}

/// What is due at each byte that does not fit, of as much as there is of the first card.
fn misfits(rest: &[u8]) -> Vec<Due> {
    let dues = layout(rest[0]).expect("a kind of card").into_iter().map(|(_, due)| due);
    let pairs = dues.zip(&rest[BODY..]).filter(|(due, &found)| !due.fits(found));
    pairs.map(|(due, _)| due).collect()
}

/// Whether the location or the first order is there, three digits, and out of range.
fn out_of_range(rest: &[u8]) -> bool {
    let digits = rest.get(judged_field(rest[0])).and_then(|field| std::str::from_utf8(field).ok());
    let digits = digits.filter(|digits| digits.bytes().all(|digit| digit.is_ascii_digit()));
    let value: Option<u64> = digits.and_then(|digits| digits.parse().ok());
    value.is_some_and(|value| value == 0 || value > highest(rest[0]))
}

/// Whether good cards have a T among them: the only byte T that they can hold is its kind.
fn holds_t(cards: &[u8]) -> bool {
    cards.contains(&TRANSFER)
}

#[cfg(test)]
mod tests {
    use super::*;
    use crate::decks::cases::case;
    use crate::model::deck::check;
    use crate::model::stop::Reason;

    #[test]
    fn nothing_is_listed_twice() {
        let different: std::collections::BTreeSet<Seen> = reachable().into_iter().collect();
        assert_eq!(different.len(), reachable().len());
    }

    /// The lines of one card, asked one by one, give the number that the check tells.
    #[test]
    fn the_first_line_that_holds_is_told() {
        for index in 0..20_000 {
            let deck = case(7, index);
            let Err(bad) = check(&deck) else { continue };
            if bad.start < deck.len() && bad.fault != Fault::TooLong {
                let told = number_of(&deck[bad.start..], holds_t(&deck[..bad.start]));
                assert_eq!(told, Some(Reason::Deck(bad.fault).number()), "deck {index}");
            }
        }
    }

    #[test]
    fn what_is_shown_is_listed() {
        let listed = reachable();
        for index in 0..20_000 {
            let deck = case(8, index);
            for shown in seen(&deck, &check(&deck)) {
                assert!(listed.contains(&shown), "deck {index}: {shown:?}");
            }
        }
    }
}
