//! Cards: the layout of each kind, reading one card, writing one card.

use std::ops::Range;

use super::word::{put_digits, Word};

/// What is due at one byte of a card's body.
#[derive(Clone, Copy, Debug, PartialEq, Eq, PartialOrd, Ord)]
pub enum Due {
    Digit,
    Sign,
}

impl Due {
    pub fn fits(self, found: u8) -> bool {
        match self {
            Due::Digit => found.is_ascii_digit(),
            Due::Sign => found == b'+' || found == b'-',
        }
    }
}

/// A field of a card's body. Words are counted from 1.
#[derive(Clone, Copy, Debug, PartialEq, Eq)]
pub enum Part {
    CardNumber,
    Location,
    Word(u8),
    Problem,
    FirstOrder,
}

/// A card that a deck may hold.
#[derive(Clone, Debug, PartialEq, Eq)]
pub enum Card {
    /// Kinds 1 to 5.
    Data(DataCard),
    /// Kind T.
    Transfer { first_order: u64, problem: u64 },
}

#[derive(Clone, Debug, PartialEq, Eq)]
pub struct DataCard {
    pub number: u64,
    pub location: u64,
    pub words: Vec<Word>,
    pub problem: u64,
}

/// What is wrong with one card, seen by itself.
#[derive(Clone, Copy, Debug, PartialEq, Eq, PartialOrd, Ord)]
pub enum CardFault {
    /// Neither 1 to 5 nor T. Cards that only a machine writes, X and Z, are among these.
    Kind,
    /// The deck ends within the card.
    CutShort,
    NotDigit,
    NotSign,
    Location000,
    LastPast999,
    FirstOrder000,
}

/// A fault and the offset, within the card, that is told of it.
#[derive(Clone, Copy, Debug, PartialEq, Eq)]
pub struct BadCard {
    pub fault: CardFault,
    pub byte: usize,
}

/// The kinds of cards that a deck may hold.
pub const KINDS: [u8; 6] = *b"12345T";

/// The kind of the card that names the first order.
pub const TRANSFER: u8 = b'T';

/// Where the body and a data card's location begin.
pub const BODY: usize = 1;
const LOCATION: usize = 5;

/// Locations and addresses of three digits end here.
pub const LAST_CELL: u64 = 999;

/// Where the location of a data card, or T's first order, stands on a card of the kind.
pub fn judged_field(kind: u8) -> Range<usize> {
    let start = if kind == TRANSFER { BODY } else { LOCATION };
    start..start + 3
}

/// The highest location that a data card of the kind may have, or T's highest first order.
pub fn highest(kind: u8) -> u64 {
    match kind {
        TRANSFER => LAST_CELL,
        _ => LAST_CELL + 1 - (kind - b'0') as u64,
    }
}

/// The body that a kind byte promises, byte by byte, or none if decks hold no such kind.
pub fn layout(kind: u8) -> Option<Vec<(Part, Due)>> {
    let words = match kind {
        b'1'..=b'5' => kind - b'0',
        TRANSFER => {
            return Some(
                [[(Part::FirstOrder, Due::Digit); 3], [(Part::Problem, Due::Digit); 3]].concat(),
            );
        }
        _ => return None,
    };
    let mut layout = vec![(Part::CardNumber, Due::Digit); 4];
    layout.extend([(Part::Location, Due::Digit); 3]);
    for word in 1..=words {
        layout.push((Part::Word(word), Due::Sign));
        layout.extend([(Part::Word(word), Due::Digit); 10]);
    }
    layout.extend([(Part::Problem, Due::Digit); 3]);
    Some(layout)
}

/// The card at the start of `rest`, which is not empty, and its length.
pub fn read_card(rest: &[u8]) -> Result<(Card, usize), BadCard> {
    let layout = layout(rest[0]).ok_or(BadCard { fault: CardFault::Kind, byte: 0 })?;
    let length = BODY + layout.len();
    let body = rest.get(BODY..length).ok_or(BadCard { fault: CardFault::CutShort, byte: 0 })?;
    for (byte, (&found, (_, due))) in (BODY..).zip(body.iter().zip(layout)) {
        if !due.fits(found) {
            let fault = match due {
                Due::Digit => CardFault::NotDigit,
                Due::Sign => CardFault::NotSign,
            };
            return Err(BadCard { fault, byte });
        }
    }
    let card = if rest[0] == TRANSFER { transfer_card(body)? } else { data_card(body)? };
    Ok((card, length))
}

fn transfer_card(body: &[u8]) -> Result<Card, BadCard> {
    let (first_order, problem) = (value(&body[..3]), value(&body[3..]));
    if first_order == 0 {
        return Err(BadCard { fault: CardFault::FirstOrder000, byte: BODY });
    }
    Ok(Card::Transfer { first_order, problem })
}

/// Card number and problem number may be any digits.
fn data_card(body: &[u8]) -> Result<Card, BadCard> {
    let words: Vec<Word> = body[7..body.len() - 3].chunks(11).map(Word::of_text).collect();
    let (number, location) = (value(&body[..4]), value(&body[4..7]));
    if location == 0 {
        return Err(BadCard { fault: CardFault::Location000, byte: LOCATION });
    }
    if location + words.len() as u64 - 1 > LAST_CELL {
        return Err(BadCard { fault: CardFault::LastPast999, byte: LOCATION });
    }
    let problem = value(&body[body.len() - 3..]);
    Ok(Card::Data(DataCard { number, location, words, problem }))
}

fn value(digits: &[u8]) -> u64 {
    digits.iter().fold(0, |value, byte| value * 10 + (byte - b'0') as u64)
}

impl DataCard {
    pub fn text(&self) -> String {
        let kind = self.words.len();
        assert!((1..=5).contains(&kind));
        self.with_kind(&kind.to_string())
    }

    /// The trace card has the same layout, always with six words.
    pub fn trace_text(&self) -> String {
        assert_eq!(self.words.len(), 6);
        self.with_kind("X")
    }

    fn with_kind(&self, kind: &str) -> String {
        let mut text = kind.to_string();
        put_digits(&mut text, self.number, 4);
        put_digits(&mut text, self.location, 3);
        self.words.iter().for_each(|word| word.put(&mut text));
        put_digits(&mut text, self.problem, 3);
        text
    }
}

#[cfg(test)]
mod tests {
    use super::*;

    #[test]
    fn a_card_reads_back_as_it_was_written() {
        for count in 1..=5 {
            let words =
                (0..count).map(|i| Word { minus: i % 2 == 0, digits: 1_234_567_890 * i }).collect();
            let card = DataCard { number: 9_999, location: 995, words, problem: 7 };
            let text = card.text();
            assert_eq!(text.len() as u64, 11 + 11 * count);
            assert_eq!(read_card(text.as_bytes()), Ok((Card::Data(card), text.len())));
        }
    }

    /// The length of a good card, or what is told of a bad one.
    fn read(text: &str) -> Result<usize, (CardFault, usize)> {
        let card = read_card(text.as_bytes());
        card.map(|(_, length)| length).map_err(|bad| (bad.fault, bad.byte))
    }

    #[test]
    fn faults_of_one_card() {
        use CardFault::*;
        assert_eq!(read("T001000"), Ok(7));
        assert_eq!(read("T000000"), Err((FirstOrder000, 1)));
        assert_eq!(read("T00100"), Err((CutShort, 0)));
        assert_eq!(read("T00100+"), Err((NotDigit, 6)));
        assert_eq!(read("X"), Err((Kind, 0)));
        assert_eq!(read("10000001+0000000000000"), Ok(22));
        assert_eq!(read("1000a001+0000000000000"), Err((NotDigit, 4)));
        assert_eq!(read("10000001 0000000000000"), Err((NotSign, 8)));
        assert_eq!(read("10000000+0000000000000"), Err((Location000, 5)));
        assert_eq!(read("20000999+0000000000+0000000000000"), Err((LastPast999, 5)));
        assert_eq!(read("20000998+0000000000-0000000000000"), Ok(33));
    }

    #[test]
    fn of_several_faults_of_a_card_the_first_line_is_told() {
        use CardFault::*;
        assert_eq!(read("?00"), Err((Kind, 0)));
        assert_eq!(read("1000a000"), Err((CutShort, 0)));
        assert_eq!(read("10000000+00000x0000y00"), Err((NotDigit, 14)));
        assert_eq!(read("1000000000000000000000"), Err((NotSign, 8)));
        assert_eq!(read("20000999+000000000+-0000000000000"), Err((NotDigit, 18)));
        assert_eq!(read("T000b00"), Err((NotDigit, 4)));
    }
}
