//! What the program says of a deck that breaks a rule, in a sentence.

use crate::model::card::{highest, layout, CardFault, Due, Part, BODY};
use crate::model::deck::{BadDeck, Fault, LONGEST};

pub fn sentence(deck: &[u8], bad: &BadDeck) -> String {
    let said = match bad.fault {
        Fault::TooLong => {
            return format!("at most {LONGEST} bytes are due in a deck, and the file is longer");
        }
        Fault::NoT => of_no_t(bad),
        Fault::SecondT => of_second_t(bad),
        Fault::Card(CardFault::Kind) => of_kind(deck, bad),
        Fault::Card(CardFault::CutShort) => of_cut(deck, bad),
        Fault::Card(CardFault::NotDigit | CardFault::NotSign) => of_misfit(deck, bad),
        Fault::Card(CardFault::Location000 | CardFault::LastPast999 | CardFault::FirstOrder000) => {
            of_range(deck, bad)
        }
    };
    format!("card {}, its {said}", bad.cards + 1)
}

fn of_kind(deck: &[u8], bad: &BadDeck) -> String {
    let (place, found) = (bad.place, byte(deck[bad.place]));
    format!("kind: 1 to 5 or T is due at byte {place}, and the byte there is {found}")
}

fn of_second_t(bad: &BadDeck) -> String {
    format!("kind: 1 to 5 is due at byte {}, and the byte there is a second T", bad.place)
}

fn of_no_t(bad: &BadDeck) -> String {
    let place = bad.place;
    format!("kind: T is due at byte {place}, and the file ends there with no first-order card")
}

/// The field and what is due are those of the first byte that is missing.
fn of_cut(deck: &[u8], bad: &BadDeck) -> String {
    let end = deck.len();
    let (field, due) = due_at(deck, bad, end);
    let start = bad.start;
    format!(
        "{field}: {due} is due at byte {end}, and the file ends there; the card begins at byte {start}"
    )
}

fn of_misfit(deck: &[u8], bad: &BadDeck) -> String {
    let (field, due) = due_at(deck, bad, bad.place);
    let (place, found) = (bad.place, byte(deck[bad.place]));
    format!("{field}: {due} is due at byte {place}, and the byte there is {found}")
}

fn of_range(deck: &[u8], bad: &BadDeck) -> String {
    let (field, _) = due_at(deck, bad, bad.place);
    let highest = highest(deck[bad.start]);
    let (place, digits) = (bad.place, deck[bad.place..bad.place + 3].escape_ascii());
    format!(
        "{field}: 001 to {highest:03} is due at byte {place}, and the digits there are {digits}"
    )
}

/// The field at a place of the bad card, and what is due there.
fn due_at(deck: &[u8], bad: &BadDeck, place: usize) -> (String, &'static str) {
    let layout = layout(deck[bad.start]).expect("a kind of card");
    let (part, due) = layout[place - bad.start - BODY];
    let due = match due {
        Due::Digit => "a digit",
        Due::Sign => "a sign",
    };
    (field(part), due)
}

fn field(part: Part) -> String {
    const WORDS: [&str; 5] = ["first", "second", "third", "fourth", "fifth"];
    match part {
        Part::CardNumber => "card number".to_string(),
        Part::Location => "location".to_string(),
        Part::Word(word) => format!("{} word", WORDS[word as usize - 1]),
        Part::Problem => "problem number".to_string(),
        Part::FirstOrder => "first order".to_string(),
    }
}

fn byte(found: u8) -> String {
    match found {
        b'\t' => "a tab".to_string(),
        b'\n' => "a line end".to_string(),
        b'\r' => "a carriage return".to_string(),
        b' ' => "a space".to_string(),
        b'+' => "a plus sign".to_string(),
        b'-' => "a minus sign".to_string(),
        b'0'..=b'9' => format!("a digit {}", found as char),
        b'A'..=b'Z' | b'a'..=b'z' => format!("a letter {}", found as char),
        b'!'..=b'~' => format!("a mark {}", found as char),
        _ => format!("number {found}"),
    }
}

#[cfg(test)]
mod tests {
    use super::*;
    use crate::model::deck::check;

    const CARD: &str = "10000001+0000000000000";

    fn said(deck: &str) -> String {
        let deck = deck.as_bytes();
        sentence(deck, &check(deck).expect_err("a bad deck"))
    }

    #[test]
    fn a_sentence_for_each_number() {
        assert_eq!(
            said("T001000?"),
            "card 2, its kind: 1 to 5 or T is due at byte 7, and the byte there is a mark ?"
        );
        assert_eq!(
            said("T0010001000100"),
            "card 2, its location: a digit is due at byte 14, and the file ends there; \
             the card begins at byte 7"
        );
        assert_eq!(
            said("10000001"),
            "card 1, its first word: a sign is due at byte 8, and the file ends there; \
             the card begins at byte 0"
        );
        assert_eq!(
            said(&format!("{CARD}T00l000")),
            "card 2, its first order: a digit is due at byte 25, and the byte there is a letter l"
        );
        assert_eq!(
            said("20000001+000000000070000000000000"),
            "card 1, its second word: a sign is due at byte 19, and the byte there is a digit 7"
        );
        assert_eq!(
            said("T00100020000999+0000000000+0000000000000"),
            "card 2, its location: 001 to 998 is due at byte 12, and the digits there are 999"
        );
        assert_eq!(
            said("T000000"),
            "card 1, its first order: 001 to 999 is due at byte 1, and the digits there are 000"
        );
        assert_eq!(
            said("T001000T"),
            "card 2, its kind: 1 to 5 is due at byte 7, and the byte there is a second T"
        );
        assert_eq!(
            said(CARD),
            "card 2, its kind: T is due at byte 22, \
             and the file ends there with no first-order card"
        );
        assert_eq!(
            said(&CARD.repeat(3_000)),
            "at most 65536 bytes are due in a deck, and the file is longer"
        );
    }

    #[test]
    fn bytes_by_their_names() {
        let named = [0, 9, 10, 13, 32, 43, 45, 55, 79, 63, 126, 127, 200].map(byte);
        let names = [
            "number 0",
            "a tab",
            "a line end",
            "a carriage return",
            "a space",
            "a plus sign",
            "a minus sign",
            "a digit 7",
            "a letter O",
            "a mark ?",
            "a mark ~",
            "number 127",
            "number 200",
        ];
        assert_eq!(named, names);
    }
}
