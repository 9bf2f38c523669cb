//! The leading part of a number, and whether its exponent is even or odd: these decide the eight
//! digits of its root.

use crate::chance::Chance;
use crate::model::word::Number;
use crate::numbers::operands::number;

#[derive(Clone, Copy, Debug, PartialEq, Eq, PartialOrd, Ord, Hash)]
pub enum Parity {
    Even,
    Odd,
}

pub const PARITIES: [Parity; 2] = [Parity::Even, Parity::Odd];

impl Parity {
    /// The factor that makes a square of the leading part. A number is worth m * 10^(a - 57), which
    /// is m * 10^7 times 10^(a - 64) for an even a, and m * 10^8 times 10^(a - 65) for an odd one.
    /// The power is a square, and the root of the other factor has eight digits before its point.
    pub fn unit(self) -> u64 {
        match self {
            Parity::Even => 10_000_000,
            Parity::Odd => 100_000_000,
        }
    }
}

#[derive(Clone, Copy, Debug, PartialEq, Eq, PartialOrd, Ord, Hash)]
pub struct Part {
    pub m: u64,
    pub parity: Parity,
}

impl Part {
    /// The part with these digits, if there are eight of them and the first is not 0.
    pub fn new(m: u64, parity: Parity) -> Option<Part> {
        (Number::LEAST..10 * Number::LEAST).contains(&m).then_some(Part { m, parity })
    }

    /// The part of a number other than zero.
    pub fn of(x: Number) -> Part {
        Part { m: x.m, parity: PARITIES[(x.a % 2) as usize] }
    }

    /// The part so many places up or down, if there is one.
    pub fn beside(self, by: i64) -> Option<Part> {
        Part::new(self.m.checked_add_signed(by)?, self.parity)
    }

    /// The square whose root, rounded to a whole number, is the eight digits.
    pub fn square(self) -> u64 {
        self.m * self.parity.unit()
    }

    /// A number with this part: any exponent, those at the ends and in the middle more often.
    pub fn operand(self, chance: &mut Chance) -> u64 {
        let pair = if chance.one_in(8) { chance.pick(&[0, 24, 25, 49]) } else { chance.below(50) };
        number(false, self.m, 2 * pair + self.parity as u64)
    }
}
