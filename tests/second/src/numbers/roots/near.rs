//! Roots as near as they come to half way between two numbers of eight digits, or to one of them.
//!
//! With n the square of a leading part, its root lies near half of x where 4 n lies near x^2. For
//! an odd x that is half way, for an even one it is a whole root. Not every x need be looked at:
//! 4 n is a multiple of `PERIOD`, by which the squares of x and x + `PERIOD` leave one remainder.

use std::collections::BTreeMap;
use std::sync::OnceLock;

use super::part::{Parity, Part};

/// So far from x^2, and no farther, lie the parts that are found.
pub const NEAR: u64 = 10_000;

#[derive(Clone, Copy, Debug, PartialEq, Eq, PartialOrd, Ord)]
pub enum Place {
    BelowHalf,
    AboveHalf,
    BelowWhole,
    AboveWhole,
}

pub const PLACES: [Place; 4] =
    [Place::BelowHalf, Place::AboveHalf, Place::BelowWhole, Place::AboveWhole];

impl Place {
    /// Which it is for this x and a distance other than 0.
    pub fn of(twice: u64, apart: i64) -> Place {
        match (twice % 2 == 1, apart < 0) {
            (true, true) => Place::BelowHalf,
            (true, false) => Place::AboveHalf,
            (false, true) => Place::BelowWhole,
            (false, false) => Place::AboveWhole,
        }
    }

    /// No distance is smaller, of either parity. 4 n is a multiple of 2^9 and of 5^7. The square of
    /// an odd x leaves 1 when it is divided by 8, so 4 n may lie 1 below it, and above it 7, 15, 23
    /// or 31; but no square leaves the remainder of -7 or of -23 by 5, or that of -15 by 25. The
    /// distances from an even x are 4 times those of n from a square; n may lie 1 below it, and
    /// above it one of the same four or 28, but no square leaves the remainder of -28 by 5.
    pub fn least(self) -> i64 {
        match self {
            Place::BelowHalf => -1,
            Place::AboveHalf => 31,
            Place::BelowWhole => -4,
            Place::AboveWhole => 124,
        }
    }
}

/// How far four times the square lies above that of `twice`.
pub fn apart(part: Part, twice: u64) -> i64 {
    4 * part.square() as i64 - (twice * twice) as i64
}

/// The part whose root is nearest to half of this, if there is one: with an even exponent as far as
/// the root of ten, with an odd one from there on.
pub fn nearest_to_half_of(twice: u64) -> Option<Part> {
    let square = twice * twice;
    let parity = if square < 4_000_000_000_000_000 { Parity::Even } else { Parity::Odd };
    Part::new((square + 2 * parity.unit()) / (4 * parity.unit()), parity)
}

/// From twice the least root to twice the first that has nine digits.
const FIRST: u64 = 20_000_000;
const LAST: u64 = 200_000_000;

/// It divides `FIRST`, and four times the square of each part.
const PERIOD: u64 = 2_500_000;

type Found = BTreeMap<(Place, Parity), Vec<(u64, Part)>>;

fn find() -> Found {
    let mut found = Found::new();
    for start in 0..PERIOD {
        let rest = start * start % PERIOD;
        if rest.min(PERIOD - rest) > NEAR {
            continue;
        }
        for twice in (FIRST + start..LAST).step_by(PERIOD as usize) {
            let Some(part) = nearest_to_half_of(twice) else { continue };
            let apart = apart(part, twice);
            let distance = apart.unsigned_abs();
            if (1..=NEAR).contains(&distance) {
                let place = (Place::of(twice, apart), part.parity);
                found.entry(place).or_default().push((distance, part));
            }
        }
    }
    for parts in found.values_mut() {
        parts.sort_unstable();
    }
    found
}

/// All that lie so, with their distances, the nearest first.
pub fn all(place: Place, parity: Parity) -> &'static [(u64, Part)] {
    static FOUND: OnceLock<Found> = OnceLock::new();
    &FOUND.get_or_init(find)[&(place, parity)]
}

#[cfg(test)]
mod tests {
    use super::*;
    use crate::numbers::roots::part::PARITIES;

    fn within(rest: u64, whole: u64) -> u64 {
        if rest < whole {
            rest
        } else {
            rest - whole
        }
    }

    /// The same by looking at every x, of which only the remainder of its square is carried along.
    fn one_by_one() -> Found {
        let mut found = Found::new();
        // Twice the root of ten, in units of the eighth digit.
        let border = 63_245_554;
        for (parity, range) in [(Parity::Even, FIRST..border), (Parity::Odd, border..LAST)] {
            let whole = 4 * parity.unit();
            let square = range.start * range.start;
            let (mut rest, mut step) = (square % whole, (2 * range.start + 1) % whole);
            for twice in range {
                let (below, above) = (rest, whole - rest);
                if below.min(above) <= NEAR && below != 0 {
                    let part = nearest_to_half_of(twice).expect("a part");
                    let apart = if below < above { -(below as i64) } else { above as i64 };
                    let place = (Place::of(twice, apart), parity);
                    found.entry(place).or_default().push((below.min(above), part));
                }
                rest = within(rest + step, whole);
                step = within(step + 2, whole);
            }
        }
        found.values_mut().for_each(|parts| parts.sort_unstable());
        found
    }

    #[test]
    fn none_is_overlooked() {
        assert!(find() == one_by_one());
    }

    /// Both parities come as near as squares can.
    #[test]
    fn the_nearest_from_each_side() {
        let nearest = |place, parity| {
            let parts = all(place, parity);
            let least = parts[0].0;
            (least, parts.iter().filter(|(distance, _)| *distance == least).count())
        };
        for place in PLACES {
            for parity in PARITIES {
                assert_eq!(nearest(place, parity).0, place.least().unsigned_abs());
            }
        }
        // 4 n = (2 R + 1)^2 - 1, and 4 n = (2 R + 1)^2 + 31.
        assert_eq!(nearest(Place::BelowHalf, Parity::Even), (1, 9));
        assert_eq!(nearest(Place::BelowHalf, Parity::Odd), (1, 2));
        assert_eq!(nearest(Place::AboveHalf, Parity::Odd), (31, 3));
        let highest = Part { m: 99_999_999, parity: Parity::Odd };
        assert_eq!(apart(highest, 199_999_999), -1);
        let above = Part { m: 80_126_947, parity: Parity::Odd };
        assert_eq!(apart(above, 179_027_313), 31);
    }
}
