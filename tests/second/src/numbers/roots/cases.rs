//! The cases of this stream: one operand of the root for each index.

use super::near::{self, PLACES};
use super::part::PARITIES;
use super::turns::{self, BESIDE, END, ROUND, SQUARES};
use crate::chance::Chance;
use crate::model::word::MINUS;
use crate::numbers::cases::{Case, SQRT};
use crate::numbers::operands::{digits, exponent, number, stranger};
use crate::numbers::shapes;

/// Marks this stream apart from the others of the same seed.
const KIND: u64 = 8;

/// The first operands of every stream: P10 of the paper's table, then others at a turn of a rule.
const TABLE: [u64; 52] = [
    2_000_000_050,
    0,
    // The lowest number and the highest, and those next to them.
    1_000_000_000,
    1_000_000_100,
    9_999_999_999,
    9_999_999_899,
    // The ends of the leading part, at both ends of the exponents and in their middle.
    1_000_000_001,
    1_000_000_098,
    1_000_000_099,
    9_999_999_900,
    9_999_999_901,
    9_999_999_998,
    1_000_000_048,
    1_000_000_049,
    1_000_000_050,
    1_000_000_051,
    9_999_999_948,
    9_999_999_949,
    9_999_999_950,
    9_999_999_951,
    // 4, 9, 25, 100, 144 and a quarter.
    4_000_000_050,
    9_000_000_050,
    2_500_000_051,
    1_000_000_052,
    1_440_000_052,
    2_500_000_049,
    // Minus numbers.
    MINUS + 1_000_000_000,
    MINUS + 1_000_000_050,
    MINUS + 2_000_000_050,
    MINUS + 4_000_000_051,
    MINUS + 9_999_999_999,
    // Words that are no numbers.
    MINUS,
    1,
    50,
    99,
    100,
    400_000_050,
    999_999_900,
    999_999_999,
    MINUS + 1,
    MINUS + 50,
    MINUS + 400_000_050,
    MINUS + 999_999_999,
    // Numbers that are no words.
    2 * MINUS,
    2 * MINUS + 50,
    2 * MINUS + 2_000_000_050,
    3 * MINUS,
    5 * MINUS + 2_000_000_050,
    (1 << 40) + 2_000_000_050,
    1 << 63,
    (1 << 63) + 2_000_000_050,
    u64::MAX,
];

/// Behind these come a few of each kind, then each exponent.
const EXPONENTS: u64 = 100;

/// Then, of so many cases, so many go on in the sweep; the others are drawn, and so are all behind
/// the sweep's end.
const GROUP: u64 = 10;
const SWEPT: u64 = 3;

/// So many cases hold the whole sweep.
pub fn whole() -> u64 {
    before_the_sweep() + (turns::sweep().len() as u64).div_ceil(SWEPT) * GROUP
}

fn before_the_sweep() -> u64 {
    (TABLE.len() + turns::few().len()) as u64 + EXPONENTS
}

pub fn case(seed: u64, index: u64) -> Case {
    Case { operation: SQRT, a: operand(seed, index), b: 0 }
}

fn operand(seed: u64, index: u64) -> u64 {
    if let Some(&operand) = TABLE.get(index as usize) {
        return operand;
    }
    let chance = &mut Chance::of_case(seed, KIND, index);
    let turn = index as usize - TABLE.len();
    if let Some(part) = turns::few().get(turn) {
        return part.operand(chance);
    }
    let turn = (turn - turns::few().len()) as u64;
    if turn < EXPONENTS {
        return number(false, chance.between(10_000_000, 99_999_999), turn);
    }
    let (group, place) = ((turn - EXPONENTS) / GROUP, (turn - EXPONENTS) % GROUP);
    let swept = turns::sweep().get((group * SWEPT + place) as usize);
    match swept.filter(|_| place < SWEPT) {
        Some(part) => part.operand(chance),
        None => drawn(chance),
    }
}

/// Most often a positive number.
fn drawn(chance: &mut Chance) -> u64 {
    match chance.below(40) {
        0 => stranger(chance),
        1 => number(true, digits(chance), exponent(chance)),
        2 => 0,
        3 => at_an_end(chance),
        4 | 5 => beside_a_square(chance),
        6 | 7 => beside_a_round_number(chance),
        8 | 9 => nearest(chance),
        10..=17 => near_half(chance),
        18..=23 => shapes::near_a_square(chance),
        24..=27 => number(false, digits(chance), exponent(chance)),
        _ => number(false, chance.between(10_000_000, 99_999_999), chance.below(100)),
    }
}

fn at_an_end(chance: &mut Chance) -> u64 {
    let (place, parity) = (chance.pick_or(&[0, 1], 0, END - 1), chance.pick(&PARITIES));
    match chance.below(8) {
        0 => 1_000_000_000,
        1 => 9_999_999_999,
        2..=4 => turns::first_part(place, parity).operand(chance),
        _ => turns::last_part(place, parity).operand(chance),
    }
}

/// The square itself one time in five.
fn beside_a_square(chance: &mut Chance) -> u64 {
    loop {
        let by = chance.below(2 * BESIDE as u64 + 1) as i64 - BESIDE;
        let k = chance.between(*SQUARES.start(), *SQUARES.end());
        if let Some(part) = turns::beside_square(k, by) {
            return part.operand(chance);
        }
    }
}

fn beside_a_round_number(chance: &mut Chance) -> u64 {
    loop {
        if let Some(sides) = turns::beside_round(chance.between(ROUND.start, ROUND.end - 1)) {
            return chance.pick(&sides).operand(chance);
        }
    }
}

/// One of those that come nearest to half way or to a whole root, often one of the first.
fn nearest(chance: &mut Chance) -> u64 {
    let parts = near::all(chance.pick(&PLACES), chance.pick(&PARITIES));
    let most = if chance.percent(50) { 2 } else { parts.len() };
    parts[chance.index(most)].1.operand(chance)
}

/// From any root on, the first that is near half way as the step from part to part goes: within a
/// four-hundredth of it. Now and then a neighbour of that part.
fn near_half(chance: &mut Chance) -> u64 {
    loop {
        let mut twice = 2 * chance.between(10_000_000, 99_999_999) + 1;
        while let Some(part) = near::nearest_to_half_of(twice) {
            if near::apart(part, twice).unsigned_abs() <= part.parity.unit() / 100 {
                let by = if chance.one_in(4) { chance.pick(&[-1, 1]) } else { 0 };
                return part.beside(by).unwrap_or(part).operand(chance);
            }
            twice += 2;
        }
    }
}

#[cfg(test)]
mod tests {
    use super::*;

    #[test]
    fn a_case_depends_on_seed_and_index_alone() {
        assert_eq!(case(7, 1_000), case(7, 1_000));
        assert_ne!(case(7, 1_000), case(8, 1_000));
        assert_ne!(case(7, 1_000), case(7, 1_001));
    }

    /// The counts that the README names.
    #[test]
    fn so_many_hold_the_sweep_and_a_million_drawn_ones() {
        let count = 1_460_000;
        assert_eq!(before_the_sweep(), 375);
        assert!(whole() <= count);
        let held = before_the_sweep() + turns::sweep().len() as u64;
        assert!(count - held > 1_000_000);
    }
}
