//! Pairs of operands near the places where a rule turns: halves, carries, edges of the exponent.

use super::operands::{digits, exponent, number, signed};
use crate::chance::Chance;

const LEAST: u64 = 10_000_000;
const MOST: u64 = 99_999_999;

fn power(k: u64) -> u64 {
    10u64.pow(k as u32)
}

/// Either order of the two, each being as likely.
fn shuffled(chance: &mut Chance, a: u64, b: u64) -> (u64, u64) {
    if chance.percent(50) {
        (a, b)
    } else {
        (b, a)
    }
}

/// 1 less, the same, or 1 more, within eight digits.
fn nudged(chance: &mut Chance, m: u64) -> u64 {
    (m + chance.below(3)).saturating_sub(1).clamp(LEAST, MOST)
}

/// Two exponents, the first larger by `gap`.
fn exponents(chance: &mut Chance, gap: u64) -> (u64, u64) {
    let low = match chance.below(4) {
        0 => chance.below(3).min(99 - gap),
        1 => 99 - gap - chance.below(3).min(99 - gap),
        _ => chance.between(0, 99 - gap),
    };
    (low + gap, low)
}

pub fn close_exponents(chance: &mut Chance) -> (u64, u64) {
    let gap = chance.below(13);
    with_gap(chance, gap)
}

pub fn far_exponents(chance: &mut Chance) -> (u64, u64) {
    let gap = chance.between(13, 99);
    with_gap(chance, gap)
}

fn with_gap(chance: &mut Chance, gap: u64) -> (u64, u64) {
    let (high, low) = exponents(chance, gap);
    let (m, n) = (digits(chance), digits(chance));
    let (a, b) = (signed(chance, m, high), signed(chance, n, low));
    shuffled(chance, a, b)
}

/// The exact sum is a half of its last kept place, or one unit off a half. Counted in units of the
/// smaller operand, that place is 10^gap, or ten times less after the loss of a digit, or ten times
/// more after the gain of one.
pub fn tie_of_sum(subtract: bool, chance: &mut Chance) -> (u64, u64) {
    loop {
        let gap = chance.below(10);
        let (place, m) = match chance.below(3) {
            0 if gap > 0 => (gap - 1, LEAST + chance.below(2)),
            1 => (gap + 1, MOST - chance.below(50)),
            _ => (gap, digits(chance)),
        };
        if !(1..=8).contains(&place) {
            continue;
        }
        let (modulus, half) = (power(place), 5 * power(place - 1));
        let aligned = m * power(gap) % modulus;
        let opposite = chance.percent(50);
        let tail = if opposite { aligned + modulus - half } else { half + modulus - aligned };
        let n = tail % modulus + chance.below(power(8 - place)) * modulus;
        if n >= LEAST && n <= MOST {
            let n = if chance.percent(50) { n } else { nudged(chance, n) };
            let (high, low) = exponents(chance, gap);
            let minus = chance.percent(50);
            let (a, b) = (number(minus, m, high), number(minus ^ opposite ^ subtract, n, low));
            return shuffled(chance, a, b);
        }
    }
}

/// A power of ten less a number far below it: the loss of a digit brings that number back into sight.
pub fn just_below_a_power(subtract: bool, chance: &mut Chance) -> (u64, u64) {
    let gap = chance.between(7, 10);
    let (high, low) = exponents(chance, gap);
    let minus = chance.percent(50);
    let (a, b) = (number(minus, LEAST, high), number(minus == subtract, digits(chance), low));
    shuffled(chance, a, b)
}

/// Nines that a small operand may push over a power of ten.
pub fn carry(subtract: bool, chance: &mut Chance) -> (u64, u64) {
    let gap = chance.below(11);
    let (high, low) = exponents(chance, gap);
    let m = MOST - chance.below(2);
    let n = if chance.percent(50) { nudged(chance, 50_000_000) } else { digits(chance) };
    let minus = chance.percent(50);
    let (a, b) = (number(minus, m, high), number(minus ^ subtract, n, low));
    shuffled(chance, a, b)
}

/// Nearly equal operands whose difference is taken: few digits stay, or none.
pub fn cancellation(subtract: bool, chance: &mut Chance) -> (u64, u64) {
    let minus = chance.percent(50);
    let m = digits(chance);
    if chance.one_in(3) {
        // One exponent apart, across a power of ten.
        let (high, low) = exponents(chance, 1);
        let a = number(minus, LEAST + chance.below(30), high);
        let b = number(minus == subtract, MOST - chance.below(300), low);
        return shuffled(chance, a, b);
    }
    let step = power(chance.below(7));
    let n = (m + chance.below(2 * step)).clamp(LEAST, MOST);
    let a = exponent(chance);
    let (x, y) = (number(minus, m, a), number(minus == subtract, n, a));
    shuffled(chance, x, y)
}

/// Operands whose difference loses just so many digits: 1 to 7 where they have one exponent, 1 to 8
/// where theirs are one apart; or equal ones, for which 0 stands. The difference is often at the lowest
/// exponent or below it. Now and then the operands are added up.
pub fn near_equals(subtract: bool, chance: &mut Chance) -> (u64, u64) {
    let lost = chance.pick(&[0, 1, 2, 2, 2, 3, 3, 3, 4, 5, 6, 7, 8]);
    let apart = lost == 8 || lost > 0 && chance.percent(50);
    let (m, n) = if apart { one_apart(lost, chance) } else { level(lost, chance) };
    let high = match chance.below(6) {
        0 => lost,
        1 => lost.saturating_sub(1),
        2 => chance.below(lost + 1),
        _ => chance.below(100),
    };
    let high = high.max(apart as u64);
    let (minus, added) = (chance.percent(50), chance.one_in(8));
    let other = (minus == subtract) ^ added;
    let (a, b) = (number(minus, m, high), number(other, n, high - apart as u64));
    shuffled(chance, a, b)
}

/// So many digits, from 1 to 8: a power of ten, nines, or any.
fn of_length(digits: u64, chance: &mut Chance) -> u64 {
    let (least, most) = (power(digits - 1), power(digits) - 1);
    chance.pick_or(&[least, most], least, most)
}

/// The digits of operands of one exponent. A difference of eight digits would lose none.
fn level(lost: u64, chance: &mut Chance) -> (u64, u64) {
    let difference = if lost == 0 { 0 } else { of_length(8 - lost, chance) };
    let m = chance.between(LEAST + difference, MOST);
    (m, m - difference)
}

/// The digits of operands one exponent apart, the larger first. Counted in units of the smaller, a
/// difference of nine digits would lose none.
fn one_apart(lost: u64, chance: &mut Chance) -> (u64, u64) {
    let difference = of_length(9 - lost, chance);
    let least = (LEAST + difference).div_ceil(10).max(LEAST);
    let m = chance.between(least, (MOST + difference) / 10);
    (m, 10 * m - difference)
}

/// Zero on either side, or on both.
pub fn with_zero(chance: &mut Chance) -> (u64, u64) {
    let (m, a) = (digits(chance), exponent(chance));
    let other = signed(chance, m, a);
    chance.pick(&[(0, other), (other, 0), (0, 0)])
}

/// Exponents that put a product at an end of the range, whatever its digits.
pub fn product_at_the_edge(chance: &mut Chance, m: u64, n: u64) -> (u64, u64) {
    let sum = match chance.below(3) {
        0 => chance.between(47, 52),
        1 => chance.between(146, 151),
        _ => chance.between(53, 145),
    };
    let a = chance.between(sum.saturating_sub(99), sum.min(99));
    (signed(chance, m, a), signed(chance, n, sum - a))
}

/// The product's digits after the eighth are a half, or one unit off a half.
pub fn tie_of_product(chance: &mut Chance) -> (u64, u64) {
    loop {
        let m = digits(chance);
        let places = chance.between(7, 8);
        let tail = 5 * power(places - 1) + chance.below(3) - 1;
        let Some(n) = cofactor(m, tail, power(places)) else { continue };
        let n = n + chance.below(power(8) / power(places)) * power(places);
        if n >= LEAST && n <= MOST {
            return product_at_the_edge(chance, m, n);
        }
    }
}

/// The n below `modulus` with m * n = tail modulo `modulus`, if m has no factor in common with 10.
fn cofactor(m: u64, tail: u64, modulus: u64) -> Option<u64> {
    let (mut r, mut s) = (modulus as i128, (m % modulus) as i128);
    let (mut t, mut u) = (0i128, 1i128);
    while s != 0 {
        let quotient = r / s;
        (r, s) = (s, r - quotient * s);
        (t, u) = (u, t - quotient * u);
    }
    let inverse = t.rem_euclid(modulus as i128);
    (r == 1).then_some((inverse * tail as i128 % modulus as i128) as u64)
}

/// A product just below a power of ten, which rounding may lift to it.
pub fn product_below_a_power(chance: &mut Chance) -> (u64, u64) {
    let m = digits(chance);
    let n = (power(15) / m).clamp(LEAST, MOST);
    let n = if chance.percent(50) { n } else { (power(16) / m).clamp(LEAST, MOST) };
    let n = nudged(chance, n);
    product_at_the_edge(chance, m, n)
}

/// Exponents that put a quotient at an end of the range, whatever its digits.
pub fn quotient_at_the_edge(chance: &mut Chance, m: u64, n: u64) -> (u64, u64) {
    let gap = match chance.below(3) {
        0 | 1 => chance.between(47, 52),
        _ => chance.below(47),
    };
    let (high, low) = exponents(chance, gap);
    let (a, b) = if chance.percent(50) { (high, low) } else { (low, high) };
    (signed(chance, m, a), signed(chance, n, b))
}

/// Twice the quotient of eight digits is odd: with k places, it is 5^k times an odd number, the
/// divisor 2^(k+1) times t and the dividend that odd number times t. Or one off, for a near half.
pub fn tie_of_quotient(chance: &mut Chance) -> (u64, u64) {
    loop {
        let k = chance.between(7, 8) as u32;
        let odd = chance.between(2 * LEAST / 5u64.pow(k), 2 * MOST / 5u64.pow(k)) | 1;
        let least = (LEAST + (2 << k) - 1) / (2 << k);
        let t = chance.between(least, MOST / (2 << k));
        let (m, n) = (odd * t, (2 << k) * t);
        if m >= LEAST && m <= MOST {
            let m = if chance.percent(60) { m } else { nudged(chance, m) };
            return quotient_at_the_edge(chance, m, n);
        }
    }
}

/// The quotient lies near a whole eight digits, or near eight digits and a half.
pub fn quotient_near_eight_digits(chance: &mut Chance) -> (u64, u64) {
    let (twice, n) = (2 * digits(chance) + chance.below(2), digits(chance));
    let m = twice * n / (2 * power(chance.between(7, 8)));
    let m = nudged(chance, m.clamp(LEAST, MOST));
    quotient_at_the_edge(chance, m, n)
}

/// The root lies near eight digits, or near eight digits and a half.
pub fn near_a_square(chance: &mut Chance) -> u64 {
    let root = digits(chance);
    let square = if chance.percent(30) { root * root } else { root * root + root };
    let (unit, odd) = if square < 1_000_000_000_000_000 { (LEAST, 0) } else { (10 * LEAST, 1) };
    let m = square / unit + chance.below(2);
    let a = chance.below(50) * 2 + odd;
    number(chance.one_in(20), m.clamp(LEAST, MOST), a)
}
