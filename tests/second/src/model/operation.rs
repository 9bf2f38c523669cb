//! The seven operations on words: which operands they take, and what they refuse.

use super::arithmetic as exact;
use super::stop::{Field, Reason};
use super::word::{Number, Word};

/// Codes 1 to 5.
#[derive(Clone, Copy, Debug, PartialEq, Eq, PartialOrd, Ord)]
pub enum OfTwo {
    Add,
    Sub,
    Mpy,
    Div,
    Ngmpy,
}

impl OfTwo {
    /// Whether it is told how many digits went.
    pub fn is_sum(self) -> bool {
        matches!(self, OfTwo::Add | OfTwo::Sub)
    }
}

/// Codes 0 300 and 0 350.
#[derive(Clone, Copy, Debug, PartialEq, Eq, PartialOrd, Ord)]
pub enum OfOne {
    Sqrt,
    Abs,
}

/// What an operation gives.
#[derive(Clone, Copy, Debug, PartialEq, Eq)]
pub struct Reckoned {
    pub word: Word,
    /// How many digits went in a sum or a difference; no other operation tells of any.
    pub lost: u64,
}

impl From<Number> for Reckoned {
    fn from(result: Number) -> Reckoned {
        Reckoned { word: result.word(), lost: 0 }
    }
}

/// Both words must be numbers before anything else is judged; then a divisor must not be zero;
/// the range comes last.
pub fn of_two(operation: OfTwo, a: Word, b: Word) -> Result<Reckoned, Reason> {
    let x = a.number().ok_or(Reason::NotNumber(Field::A))?;
    let y = b.number().ok_or(Reason::NotNumber(Field::B))?;
    let result = match operation {
        OfTwo::Add => exact::add(x, y)?,
        OfTwo::Sub => exact::sub(x, y)?,
        OfTwo::Mpy => exact::mpy(x, y)?,
        OfTwo::Div if y.is_zero() => return Err(Reason::ZeroDivisor),
        OfTwo::Div => exact::div(x, y)?,
        OfTwo::Ngmpy => exact::ngmpy(x, y)?,
    };
    let lost = if operation.is_sum() { exact::lost(x, y, result) } else { 0 };
    Ok(Reckoned { lost, ..result.into() })
}

/// How many digits go in a sum or a difference of numbers that is below the range: as many as where
/// both exponents are higher by fifty, and the result is in it.
pub fn lost_below(operation: OfTwo, a: Word, b: Word) -> u64 {
    let [a, b] = [a, b].map(|Word { minus, digits }| Word { minus, digits: digits + 50 });
    of_two(operation, a, b).expect("a result of middling size").lost
}

/// The operand is the word at B. A word that is no number is told before a negative root.
pub fn of_one(operation: OfOne, b: Word) -> Result<Reckoned, Reason> {
    let y: Number = b.number().ok_or(Reason::NotNumber(Field::B))?;
    let result = match operation {
        OfOne::Sqrt if y.minus => return Err(Reason::NegativeRoot),
        OfOne::Sqrt => exact::sqrt(y),
        OfOne::Abs => exact::abs(y),
    };
    Ok(result.into())
}

#[cfg(test)]
mod tests {
    use super::*;
    use OfOne::*;
    use OfTwo::*;

    fn word(text: &str) -> Word {
        Word::of_text(text.as_bytes())
    }

    fn two(operation: OfTwo, a: &str, b: &str) -> Result<String, u64> {
        of_two(operation, word(a), word(b)).map(|got| got.word.text()).map_err(Reason::number)
    }

    fn one(operation: OfOne, b: &str) -> Result<String, u64> {
        of_one(operation, word(b)).map(|got| got.word.text()).map_err(Reason::number)
    }

    fn is(text: &str) -> Result<String, u64> {
        Ok(text.to_string())
    }

    /// P1 to P10 of the paper's table.
    #[test]
    fn table_of_the_paper_arithmetic() {
        assert_eq!(two(Add, "+1000000050", "+1000000050"), is("+2000000050"));
        assert_eq!(two(Sub, "+1000000050", "+1000000050"), is("+0000000000"));
        assert_eq!(two(Div, "+1000000050", "+3000000050"), is("+3333333349"));
        assert_eq!(two(Div, "+2000000050", "+3000000050"), is("+6666666749"));
        assert_eq!(two(Add, "+9999999950", "+5000000042"), is("+1000000051"));
        assert_eq!(two(Add, "+9999999999", "+5000000091"), Err(27));
        assert_eq!(two(Mpy, "+1000000000", "+1000000049"), Err(27));
        assert_eq!(two(Div, "+0000000000", "+0000000000"), Err(25));
        assert_eq!(two(Ngmpy, "+2000000050", "+3000000050"), is("-6000000050"));
        assert_eq!(one(Sqrt, "+2000000050"), is("+1414213650"));
    }

    #[test]
    fn rounding_is_done_once_and_before_the_range() {
        // 0.99999999 and half a unit of its last digit: up to 1.
        assert_eq!(two(Sub, "+1000000050", "+5000000041"), is("+1000000050"));
        assert_eq!(two(Sub, "+1000000050", "+5000000141"), is("+9999999949"));
        // A sum whose tail is just below a half, made of a tail that alone would round up to it.
        assert_eq!(two(Add, "+1000000050", "+4999999942"), is("+1000000050"));
        assert_eq!(two(Add, "-1000000050", "-5000000042"), is("-1000000150"));
        // Below the range before rounding, within it after.
        assert_eq!(two(Mpy, "+1000000100", "+9999999049"), is("+1000000000"));
        assert_eq!(two(Mpy, "+1000000100", "+9999999048"), Err(27));
        assert_eq!(two(Div, "+1000000000", "+1000000050"), is("+1000000000"));
        assert_eq!(two(Div, "+1000000000", "+1000000150"), Err(27));
    }

    fn lost(operation: OfTwo, a: &str, b: &str) -> (String, u64) {
        let got = of_two(operation, word(a), word(b)).expect("a result");
        (got.word.text(), got.lost)
    }

    fn loses(text: &str, lost: u64) -> (String, u64) {
        (text.to_string(), lost)
    }

    #[test]
    fn digits_that_go() {
        assert_eq!(lost(Sub, "+1234567850", "+1234560050"), loses("+7800000044", 6));
        assert_eq!(lost(Sub, "+1000000050", "+9900000049"), loses("+1000000048", 2));
        assert_eq!(lost(Sub, "+1000000050", "+9990000049"), loses("+1000000047", 3));
        assert_eq!(lost(Add, "-9990000049", "+1000000050"), loses("+1000000047", 3));
        assert_eq!(lost(Sub, "+9999999949", "+1000000050"), loses("-1000000042", 8));
        assert_eq!(lost(Add, "+1000000150", "-1000000050"), loses("+1000000043", 7));
        // The exponents of the larger operand and of the result count, and not those of its digits.
        assert_eq!(lost(Sub, "+9999999950", "+9000000050"), loses("+9999999049", 1));
        assert_eq!(lost(Sub, "+9999999950", "+1000000050"), loses("+8999999950", 0));
        assert_eq!(lost(Add, "+1000000050", "-1000000040"), loses("+1000000050", 0));
        // None for sums, which rise, and where rounding takes the loss back.
        assert_eq!(lost(Add, "+9999999950", "+9999999950"), loses("+2000000051", 0));
        assert_eq!(lost(Sub, "+1234567850", "-1234560050"), loses("+2469127850", 0));
        assert_eq!(lost(Sub, "+1000000050", "+5000000041"), loses("+1000000050", 0));
        assert_eq!(lost(Sub, "+1000000050", "+5000000141"), loses("+9999999949", 1));
        // None with a zero among the three.
        assert_eq!(lost(Sub, "+1234567899", "+1234567899"), loses("+0000000000", 0));
        assert_eq!(lost(Sub, "+0000000000", "+1000000050"), loses("-1000000050", 0));
        assert_eq!(lost(Add, "+1000000050", "+0000000000"), loses("+1000000050", 0));
        // Other operations tell of none.
        assert_eq!(lost(Mpy, "+1000000040", "+1000000040"), loses("+1000000030", 0));
        // At the low end of the range, and below it.
        assert_eq!(lost(Sub, "+1000000107", "+1000000007"), loses("+1000000000", 7));
        let (a, b) = (word("+1000000106"), word("+1000000006"));
        assert_eq!(of_two(Sub, a, b), Err(Reason::Range(exact::OutOfRange::Below)));
        assert_eq!(lost_below(Sub, a, b), 7);
    }

    #[test]
    fn zero_and_words_that_are_no_numbers() {
        assert_eq!(two(Ngmpy, "+0000000000", "+3000000050"), is("+0000000000"));
        assert_eq!(two(Div, "+0000000000", "-3000000050"), is("+0000000000"));
        assert_eq!(two(Sub, "+0000000000", "+3000000050"), is("-3000000050"));
        assert_eq!(two(Div, "-0000000000", "+0000000000"), Err(24));
        assert_eq!(two(Div, "+1000000050", "-0000000000"), Err(24));
        assert_eq!(two(Sub, "+1000000100", "+1000000000"), Err(27));
        assert_eq!(one(Sqrt, "-0000000000"), Err(24));
        assert_eq!(one(Sqrt, "-0999999999"), Err(24));
        assert_eq!(one(Sqrt, "-1000000050"), Err(26));
        assert_eq!(one(Sqrt, "+0000000000"), is("+0000000000"));
        assert_eq!(one(Abs, "-1000000050"), is("+1000000050"));
        assert_eq!(one(Abs, "-0000000000"), Err(24));
    }
}
