//! What the root of a positive number is, by squares alone: the digits R and the exponent e for
//! which the number lies between the squares of R less a half and of R and a half.

use crate::model::word::Number;

/// Whether the second number is the nearest to the root of the first, a positive one: the square of
/// R * 10^(e - 57) is held against m * 10^(a - 57), both times 10^(114 - 2e), and times 4 for the
/// halves. No tie can occur, and no root is rounded to a power of ten from below, where a half
/// would be smaller.
pub fn is_root(x: Number, root: Number) -> bool {
    if root.minus || !(Number::LEAST..10 * Number::LEAST).contains(&root.m) {
        return false;
    }
    // The square of eight digits has at most sixteen.
    let Some(power @ 0..=16) = (x.a + 57).checked_sub(2 * root.a) else { return false };
    let four_times = 4 * x.m as u128 * 10u128.pow(power as u32);
    let twice = 2 * root.m as u128;
    (twice - 1).pow(2) < four_times && four_times < (twice + 1).pow(2)
}

#[cfg(test)]
mod tests {
    use super::*;
    use crate::model::arithmetic::sqrt;
    use crate::numbers::roots::cases::case;
    use crate::numbers::roots::seen::positive;

    fn plus(m: u64, a: u64) -> Number {
        Number { minus: false, m, a }
    }

    #[test]
    fn the_root_of_two_and_no_other() {
        assert!(is_root(plus(20_000_000, 50), plus(14_142_136, 50)));
        for (m, a) in [(14_142_135, 50), (14_142_137, 50), (14_142_136, 49), (14_142_136, 51)] {
            assert!(!is_root(plus(20_000_000, 50), plus(m, a)));
        }
        let minus = Number { minus: true, ..plus(14_142_136, 50) };
        assert!(!is_root(plus(20_000_000, 50), minus));
        assert!(!is_root(plus(20_000_000, 50), Number::ZERO));
        assert!(!is_root(plus(20_000_000, 0), plus(14_142_136, 99)));
    }

    /// A root of more digits or of fewer is none, though it lies between the halves.
    #[test]
    fn a_root_has_eight_digits() {
        assert!(is_root(plus(40_000_000, 50), plus(20_000_000, 50)));
        assert!(!is_root(plus(40_000_000, 50), plus(200_000_000, 49)));
        assert!(!is_root(plus(40_000_000, 50), plus(2_000_000, 51)));
    }

    #[test]
    fn of_the_model_s_roots_each_is_one_and_its_neighbours_are_not() {
        for number in (0..20_000).filter_map(|index| positive(case(1, index).a)) {
            let root = sqrt(number);
            assert!(is_root(number, root), "{number:?}");
            for m in [root.m - 1, root.m + 1] {
                assert!(!is_root(number, Number { m, ..root }), "{number:?}");
            }
        }
    }
}
