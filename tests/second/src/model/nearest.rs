//! The eight-digit number nearest an exact positive value, halves upward.
//!
//! Nothing here divides or approximates. A value is known only by the question "is k halves of the
//! unit 10^e at most the value?", which is answered by multiplying out both sides. The exponent and
//! then the eight digits are the largest ones for which the answer is yes.

use super::natural::{power_of_ten, Natural};

/// Values of our numbers, in units of 10^-57, lie between 10^-43 and 10^158 whatever the operation,
/// so their exponents lie well within these bounds. The largest product below is that of a root's
/// test, (2 * 10^8)^2 * 10^(2 * 160), below 10^340.
const LOWEST: i64 = -60;
const HIGHEST: i64 = 160;

const EIGHT_DIGITS: u64 = 100_000_000;
const SEVEN_DIGITS: u64 = 10_000_000;

/// A positive value, exactly.
pub enum Exact {
    /// The first over the second.
    Ratio(Natural, Natural),
    /// The square root.
    Root(Natural),
}

/// The question for one exponent: `k` is answered yes when `k * left <= right`, or for a root when
/// `k * k * left <= right`.
struct Question {
    left: Natural,
    right: Natural,
    squared: bool,
}

impl Question {
    fn new(value: &Exact, e: i64) -> Question {
        match value {
            // k/2 * 10^e <= top/bottom, both sides times 2 * bottom.
            Exact::Ratio(top, bottom) => {
                let (left, right) = scale(*bottom, top.times_small(2), e);
                Question { left, right, squared: false }
            }
            // (k/2)^2 * 10^(2e) <= square, both sides times 4.
            Exact::Root(square) => {
                let (left, right) = scale(Natural::new(1), square.times_small(4), 2 * e);
                Question { left, right, squared: true }
            }
        }
    }

    fn holds(&self, k: u64) -> bool {
        let factor = if self.squared { k * k } else { k };
        self.left.times_small(factor) <= self.right
    }
}

/// Both sides of a comparison after the left one got the factor 10^power, kept whole.
fn scale(left: Natural, right: Natural, power: i64) -> (Natural, Natural) {
    let factor = power_of_ten(power.unsigned_abs() as usize);
    if power >= 0 {
        (left.times(factor), right)
    } else {
        (left, right.times(factor))
    }
}

/// The largest of `low..high` for which `holds`, which is true at `low` and then turns false once.
fn largest(low: i64, high: i64, holds: impl Fn(i64) -> bool) -> i64 {
    let (mut yes, mut no) = (low, high);
    while no - yes > 1 {
        let middle = yes + (no - yes) / 2;
        if holds(middle) {
            yes = middle;
        } else {
            no = middle;
        }
    }
    yes
}

/// Eight digits and exponent of the nearest number, before any judgment of the exponent's range.
pub fn nearest(value: &Exact) -> (u64, i64) {
    let eight_digits_reach = |e| Question::new(value, e).holds(2 * SEVEN_DIGITS);
    assert!(eight_digits_reach(LOWEST) && !eight_digits_reach(HIGHEST));
    let e = largest(LOWEST, HIGHEST, eight_digits_reach);

    // m is right when m - 1/2 is at most the value and m + 1/2 is above it.
    let question = Question::new(value, e);
    let m =
        largest(SEVEN_DIGITS as i64, EIGHT_DIGITS as i64 + 1, |m| question.holds(2 * m as u64 - 1))
            as u64;
    if m == EIGHT_DIGITS {
        (SEVEN_DIGITS, e + 1)
    } else {
        (m, e)
    }
}

#[cfg(test)]
mod tests {
    use super::*;

    fn ratio(top: u64, bottom: u64) -> (u64, i64) {
        nearest(&Exact::Ratio(Natural::new(top), Natural::new(bottom)))
    }

    #[test]
    fn halves_go_up_and_only_halves() {
        assert_eq!(ratio(123_456_785, 1), (12_345_679, 1));
        assert_eq!(ratio(1_234_567_849, 1), (12_345_678, 2));
        assert_eq!(ratio(1_234_567_850, 1), (12_345_679, 2));
        assert_eq!(ratio(1, 3), (33_333_333, -8));
        assert_eq!(ratio(2, 3), (66_666_667, -8));
    }

    #[test]
    fn rounding_may_add_a_digit() {
        assert_eq!(ratio(999_999_994, 1), (99_999_999, 1));
        assert_eq!(ratio(999_999_995, 1), (10_000_000, 2));
    }

    #[test]
    fn roots() {
        assert_eq!(nearest(&Exact::Root(Natural::new(2))), (14_142_136, -7));
        assert_eq!(nearest(&Exact::Root(Natural::new(144))), (12_000_000, -6));
        assert_eq!(nearest(&Exact::Root(*power_of_ten(164))), (10_000_000, 75));
    }
}
