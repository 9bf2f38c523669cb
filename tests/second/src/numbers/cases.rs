//! The cases: one for each index of a stream.

use super::operands::{any, any_number, digits, exponent, number, signed};
use super::seen::{self, Seen, REACHABLE};
use super::shapes;
use crate::chance::Chance;
use crate::model::word::MINUS;

#[derive(Clone, Copy, Debug, PartialEq, Eq)]
pub struct Case {
    pub operation: u64,
    pub a: u64,
    /// 0 for the operations of one operand.
    pub b: u64,
}

pub const ADD: u64 = 0;
pub const SUB: u64 = 1;
pub const MPY: u64 = 2;
pub const DIV: u64 = 3;
pub const NGMPY: u64 = 4;
pub const SQRT: u64 = 5;
pub const ABS: u64 = 6;

/// The two operations that tell how many digits went.
pub const SUMS: [u64; 2] = [ADD, SUB];

pub fn is_sum(operation: u64) -> bool {
    SUMS.contains(&operation)
}

/// Marks this stream apart from the others of the same seed.
const KIND: u64 = 1;

/// The first cases of every stream: P1 to P10 of the paper's table, then others at a turn of a rule,
/// so that each operation answers each of its numbers.
const TABLE: [(u64, u64, u64); 31] = [
    (ADD, 1_000_000_050, 1_000_000_050),
    (SUB, 1_000_000_050, 1_000_000_050),
    (DIV, 1_000_000_050, 3_000_000_050),
    (DIV, 2_000_000_050, 3_000_000_050),
    (ADD, 9_999_999_950, 5_000_000_042),
    (ADD, 9_999_999_999, 5_000_000_091),
    (MPY, 1_000_000_000, 1_000_000_049),
    (DIV, 0, 0),
    (NGMPY, 2_000_000_050, 3_000_000_050),
    (SQRT, 2_000_000_050, 0),
    // The range is judged after rounding.
    (MPY, 1_000_000_100, 9_999_999_049),
    (ADD, 9_999_999_999, 4_999_999_991),
    // Below the range by the loss of digits.
    (SUB, 1_000_000_100, 1_000_000_000),
    // Six digits go, three, and two.
    (SUB, 1_234_567_850, 1_234_560_050),
    (SUB, 1_000_000_050, 9_990_000_049),
    (ADD, 11_000_000_050, 9_900_000_049),
    // Half a unit below a power of ten.
    (SUB, 1_000_000_050, 5_000_000_041),
    (SUB, 1_000_000_050, 5_000_000_141),
    (DIV, 1_000_000_000, 1_000_000_051),
    (NGMPY, 9_999_999_999, 9_999_999_999),
    (NGMPY, 0, 11_000_000_050),
    // Words that are no numbers, minus zero among them, and numbers that are no words.
    (ADD, MINUS, 0),
    (SUB, 0, MINUS),
    (MPY, 999_999_999, 1_000_000_050),
    (DIV, MINUS, 0),
    (NGMPY, u64::MAX, 1_000_000_050),
    (SQRT, MINUS, 0),
    (SQRT, 11_000_000_050, 0),
    (ABS, 19_999_999_999, 0),
    (ABS, 20_000_000_000, 0),
    (ABS, 2 * MINUS + 1_000_000_050, 0),
];

/// Behind these come sums of each kind and differences of each kind.
const OF_EACH_KIND: usize = SUMS.len() * REACHABLE.len();

/// How often each operation is drawn, in hundredths.
const SHARES: [(u64, u64); 7] =
    [(ADD, 22), (SUB, 22), (MPY, 16), (DIV, 18), (NGMPY, 6), (SQRT, 12), (ABS, 4)];

pub fn case(seed: u64, index: u64) -> Case {
    if let Some(&(operation, a, b)) = TABLE.get(index as usize) {
        return Case { operation, a, b };
    }
    let chance = &mut Chance::of_case(seed, KIND, index);
    let turn = index as usize - TABLE.len();
    if turn < OF_EACH_KIND {
        return of_kind(SUMS[turn % SUMS.len()], REACHABLE[turn / SUMS.len()], chance);
    }
    let operation = drawn(chance);
    let (a, b) = operands(operation, chance);
    Case { operation, a, b }
}

fn of_kind(operation: u64, kind: Seen, chance: &mut Chance) -> Case {
    loop {
        let (a, b) = sum_operands(operation, chance);
        let case = Case { operation, a, b };
        if seen::seen(case).contains(&kind) {
            return case;
        }
    }
}

fn drawn(chance: &mut Chance) -> u64 {
    let mut rest = chance.below(100);
    for (operation, share) in SHARES {
        if rest < share {
            return operation;
        }
        rest -= share;
    }
    unreachable!("the shares make a hundred")
}

pub fn operands(operation: u64, chance: &mut Chance) -> (u64, u64) {
    match operation {
        SQRT => (root_operand(chance), 0),
        ABS => (any(chance), 0),
        _ if chance.one_in(8) => (any(chance), any(chance)),
        ADD | SUB => sum_operands(operation, chance),
        MPY | NGMPY => product_operands(chance),
        _ => quotient_operands(chance),
    }
}

fn sum_operands(operation: u64, chance: &mut Chance) -> (u64, u64) {
    let subtract = operation == SUB;
    match chance.below(14) {
        0 => (any_number(chance), any_number(chance)),
        1 | 2 => shapes::close_exponents(chance),
        3 => shapes::far_exponents(chance),
        4 | 5 => shapes::tie_of_sum(subtract, chance),
        6 => shapes::carry(subtract, chance),
        7 => shapes::just_below_a_power(subtract, chance),
        8 => shapes::cancellation(subtract, chance),
        9 => shapes::with_zero(chance),
        _ => shapes::near_equals(subtract, chance),
    }
}

fn product_operands(chance: &mut Chance) -> (u64, u64) {
    match chance.below(6) {
        0 => (any_number(chance), any_number(chance)),
        1 | 2 => shapes::tie_of_product(chance),
        3 => shapes::product_below_a_power(chance),
        _ => {
            let (m, n) = (digits(chance), digits(chance));
            shapes::product_at_the_edge(chance, m, n)
        }
    }
}

fn quotient_operands(chance: &mut Chance) -> (u64, u64) {
    match chance.below(8) {
        0 => (any_number(chance), any_number(chance)),
        1 | 2 => shapes::tie_of_quotient(chance),
        3 => shapes::quotient_near_eight_digits(chance),
        4 => (any_number(chance), 0),
        _ => {
            let (m, n) = (digits(chance), digits(chance));
            shapes::quotient_at_the_edge(chance, m, n)
        }
    }
}

fn root_operand(chance: &mut Chance) -> u64 {
    match chance.below(6) {
        0 => any(chance),
        1 => {
            let (m, a) = (digits(chance), exponent(chance));
            signed(chance, m, a)
        }
        2 => number(false, digits(chance), exponent(chance)),
        _ => shapes::near_a_square(chance),
    }
}

#[cfg(test)]
mod tests {
    use super::*;

    #[test]
    fn a_case_depends_on_seed_and_index_alone() {
        assert_eq!(case(7, 1000), case(7, 1000));
        assert_ne!(case(7, 1000), case(8, 1000));
        assert_ne!(case(7, 1000), case(7, 1001));
    }
}
