//! Operands: random ones and hostile ones.

use crate::chance::Chance;
use crate::model::word::MINUS;

/// The cell of a number with these eight digits and exponent.
pub fn number(minus: bool, m: u64, a: u64) -> u64 {
    assert!((10_000_000..100_000_000).contains(&m) && a <= 99);
    m * 100 + a + if minus { MINUS } else { 0 }
}

pub fn signed(chance: &mut Chance, m: u64, a: u64) -> u64 {
    let minus = chance.percent(50);
    number(minus, m, a)
}

/// Eight digits, the first not 0: round ones, ones at either end, ones near powers, any.
pub fn digits(chance: &mut Chance) -> u64 {
    let m = match chance.below(10) {
        0 => chance.pick(&[10_000_000, 99_999_999, 50_000_000, 33_333_333, 66_666_667]),
        1 => 10_000_000 + chance.below(20),
        2 => 99_999_999 - chance.below(20),
        3 => chance.between(1, 9) * 10_000_000 + chance.below(3),
        4 => chance.between(10, 99) * 1_000_000,
        5 => 1 << chance.between(24, 26),
        6 => 5u64.pow(11) * chance.between(1, 2),
        7 => 31_622_776 + chance.below(3),
        _ => chance.between(10_000_000, 99_999_999),
    };
    m.clamp(10_000_000, 99_999_999)
}

pub fn exponent(chance: &mut Chance) -> u64 {
    match chance.below(8) {
        0 => chance.below(3),
        1 => 99 - chance.below(3),
        2 | 3 => chance.between(40, 60),
        _ => chance.below(100),
    }
}

/// Any number, now and then zero.
pub fn any_number(chance: &mut Chance) -> u64 {
    if chance.one_in(25) {
        return 0;
    }
    let (m, a) = (digits(chance), exponent(chance));
    signed(chance, m, a)
}

/// Words that are no numbers, and numbers that are no words.
pub fn stranger(chance: &mut Chance) -> u64 {
    let sign = chance.below(2) * MINUS;
    match chance.below(9) {
        0 => MINUS,
        1 => sign + chance.between(1, 99),
        2 => sign + 999_999_999 - chance.below(3),
        3 => sign + chance.between(1, 999_999_999),
        4 => 2 * MINUS + chance.below(3),
        5 => 2 * MINUS + any_number(chance),
        6 => u64::MAX - chance.below(3),
        7 => {
            (chance.between(1, u32::MAX as u64) << 32) + any_number(chance) % (1 << 32) + 2 * MINUS
        }
        _ => chance.next().max(2 * MINUS),
    }
}

/// Mostly a number, now and then not.
pub fn any(chance: &mut Chance) -> u64 {
    if chance.one_in(12) {
        stranger(chance)
    } else {
        any_number(chance)
    }
}

#[cfg(test)]
mod tests {
    use super::*;
    use crate::model::word::Word;

    #[test]
    fn strangers_are_no_numbers() {
        let mut chance = Chance::new(1);
        for _ in 0..100_000 {
            let stranger = stranger(&mut chance);
            assert_eq!(Word::of_cell(stranger).and_then(Word::number), None, "{stranger}");
            let number = any_number(&mut chance);
            assert!(Word::of_cell(number).and_then(Word::number).is_some(), "{number}");
        }
    }
}
