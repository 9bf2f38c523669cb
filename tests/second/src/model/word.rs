//! Words, and the words that are numbers.

/// A cell of the drum adds this to the digits of a minus word; ten digits stay below it.
pub const MINUS: u64 = 10_000_000_000;

/// Puts a number of so many digits, at most ten, behind a text.
pub fn put_digits(text: &mut String, number: u64, width: usize) {
    let (mut digits, mut rest) = ([b'0'; 10], number);
    for digit in digits[..width].iter_mut().rev() {
        *digit += (rest % 10) as u8;
        rest /= 10;
    }
    assert_eq!(rest, 0, "{number} has more than {width} digits");
    text.extend(digits[..width].iter().map(|&digit| digit as char));
}

/// A sign and ten decimal digits. Minus zero is a word of its own.
#[derive(Clone, Copy, Debug, PartialEq, Eq)]
pub struct Word {
    pub minus: bool,
    pub digits: u64,
}

impl Word {
    pub const PLUS_ZERO: Word = Word { minus: false, digits: 0 };

    pub fn plus(digits: u64) -> Word {
        assert!(digits < MINUS);
        Word { minus: false, digits }
    }

    /// The word that a cell's number stands for, if it stands for one.
    pub fn of_cell(number: u64) -> Option<Word> {
        if number >= 2 * MINUS {
            return None;
        }
        Some(Word { minus: number >= MINUS, digits: number % MINUS })
    }

    pub fn cell(self) -> u64 {
        if self.minus {
            self.digits + MINUS
        } else {
            self.digits
        }
    }

    /// Sign byte and ten digits, as on a card.
    pub fn text(self) -> String {
        let mut text = String::new();
        self.put(&mut text);
        text
    }

    /// The same, behind a text.
    pub fn put(self, text: &mut String) {
        text.push(if self.minus { '-' } else { '+' });
        put_digits(text, self.digits, 10);
    }

    /// The word that eleven good bytes of a card spell.
    pub fn of_text(bytes: &[u8]) -> Word {
        let digits = bytes[1..].iter().fold(0, |value, byte| value * 10 + (byte - b'0') as u64);
        Word { minus: bytes[0] == b'-', digits }
    }

    /// The word as a number: plus zero, or eight digits that do not begin with 0 and an exponent.
    pub fn number(self) -> Option<Number> {
        if self == Word::PLUS_ZERO {
            return Some(Number::ZERO);
        }
        let (m, a) = (self.digits / 100, self.digits % 100);
        if m < Number::LEAST {
            return None;
        }
        Some(Number { minus: self.minus, m, a })
    }
}

/// Worth `m` times 10 to the power `a` - 57, with its sign. Zero has one form, all parts zero.
#[derive(Clone, Copy, Debug, PartialEq, Eq)]
pub struct Number {
    pub minus: bool,
    pub m: u64,
    pub a: u64,
}

impl Number {
    pub const ZERO: Number = Number { minus: false, m: 0, a: 0 };

    /// The eight digits of a number other than zero lie from here to just below ten times this.
    pub const LEAST: u64 = 10_000_000;

    pub fn is_zero(self) -> bool {
        self.m == 0
    }

    pub fn word(self) -> Word {
        Word { minus: self.minus, digits: self.m * 100 + self.a }
    }
}

#[cfg(test)]
mod tests {
    use super::*;

    #[test]
    fn cells_and_words_agree() {
        for cell in [0, 1, 9_999_999_999, 10_000_000_000, 19_999_999_999] {
            assert_eq!(Word::of_cell(cell).map(Word::cell), Some(cell));
        }
        assert_eq!(Word::of_cell(20_000_000_000), None);
        assert_eq!(Word::of_cell(u64::MAX), None);
        assert_eq!(Word { minus: true, digits: 0 }.text(), "-0000000000");
        assert_eq!(Word::of_text(b"-1234567890"), Word { minus: true, digits: 1_234_567_890 });
    }

    #[test]
    fn which_words_are_numbers() {
        let number = |cell| Word::of_cell(cell).and_then(Word::number);
        assert_eq!(number(0), Some(Number::ZERO));
        assert_eq!(number(MINUS), None);
        assert_eq!(number(1), None);
        assert_eq!(number(999_999_999), None);
        assert_eq!(number(1_000_000_000), Some(Number { minus: false, m: 10_000_000, a: 0 }));
        assert_eq!(number(19_999_999_999), Some(Number { minus: true, m: 99_999_999, a: 99 }));
    }
}
