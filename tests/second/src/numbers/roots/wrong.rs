//! Wrong roots with one fault each, all of which the first cases of the stream must tell.

use super::cases::case;
use super::near::apart;
use super::part::{Parity, Part};
use super::seen::positive;
use crate::model::word::{Number, Word, MINUS};
use crate::numbers::answer;
use crate::numbers::cases::{Case, SQRT};

/// As many as a driver with one fault is tried with.
const FIRST: u64 = 500;

/// The root of a square, cut to a whole number.
fn cut(square: u64) -> u64 {
    let near = (square as f64).sqrt() as u64;
    (near - 1..=near + 1).rev().find(|root| root * root <= square).expect("a root")
}

fn rounded(square: u64) -> u64 {
    up_by_rest(square, cut(square))
}

/// One more where the rest says so. A root that is too large has a rest below zero, which wraps.
fn up_by_rest(square: u64, root: u64) -> u64 {
    root + (square.wrapping_sub(root * root) > root) as u64
}

fn is_square(square: u64) -> bool {
    cut(square) * cut(square) == square
}

/// How far above half way between the cut root and the next, as `near.rs` counts.
fn from_half(part: Part) -> i64 {
    apart(part, 2 * cut(part.square()) + 1)
}

/// So many steps of Newton's from the newsletter's guess, 1 + .22 times the part; no correction.
fn steps(part: Part, steps: usize) -> u64 {
    let square = part.square();
    let guess = 10_000_000 + square / 10_000_000 * 22 / 100;
    up_by_rest(square, (0..steps).fold(guess, |root, _| (root + square / root) / 2))
}

/// The right digits, or one more or one less where this holds.
fn off(part: Part, by: i64, wrong: bool) -> u64 {
    rounded(part.square()).saturating_add_signed(if wrong { by } else { 0 })
}

fn even(part: Part) -> bool {
    part.parity == Parity::Even
}

type Digits = fn(Part) -> u64;

const WRONG_DIGITS: [(&str, Digits); 38] = [
    ("cut", |part| cut(part.square())),
    ("cut, and one more", |part| cut(part.square()) + 1),
    ("up at all times", |part| cut(part.square() - 1) + 1),
    ("rounded twice", |part| (rounded(100 * part.square()) + 5) / 10),
    ("with floats", |part| (part.square() as f64).sqrt().round() as u64),
    ("with short floats", |part| (part.square() as f32).sqrt().round() as u64),
    ("odd as even", |part| rounded(part.m * 10_000_000)),
    ("even as odd", |part| rounded(part.m * 100_000_000)),
    ("three steps", |part| steps(part, 3)),
    ("four steps", |part| steps(part, 4)),
    ("five steps", |part| steps(part, 5)),
    ("eight steps", |part| steps(part, 8)),
    ("nine steps", |part| steps(part, 9)),
    ("up below half, even", |part| off(part, 1, even(part) && from_half(part) == -1)),
    ("up below half, odd", |part| off(part, 1, !even(part) && from_half(part) == -1)),
    ("up nine below half, even", |part| off(part, 1, even(part) && from_half(part) == -9)),
    ("up nine below half, odd", |part| off(part, 1, !even(part) && from_half(part) == -9)),
    ("down above half, even", |part| off(part, -1, even(part) && from_half(part) == 31)),
    ("down above half, odd", |part| off(part, -1, !even(part) && from_half(part) == 31)),
    ("down farther above half, even", |part| off(part, -1, even(part) && from_half(part) == 39)),
    ("down farther above half, odd", |part| off(part, -1, !even(part) && from_half(part) == 39)),
    ("squares, even", |part| off(part, 1, even(part) && is_square(part.square()))),
    ("squares, odd", |part| off(part, -1, !even(part) && is_square(part.square()))),
    ("one below a square, even", |part| off(part, 1, even(part) && is_square(part.square() + 1))),
    ("one below a square, odd", |part| off(part, 1, !even(part) && is_square(part.square() + 1))),
    ("31 above a square, even", |part| off(part, -1, even(part) && is_square(part.square() - 31))),
    ("31 above a square, odd", |part| off(part, -1, !even(part) && is_square(part.square() - 31))),
    ("part above a square", |part| off(part, 1, part.beside(-1).is_some_and(exact))),
    ("part below a square", |part| off(part, -1, part.beside(1).is_some_and(exact))),
    ("first part, even", |part| off(part, 1, even(part) && part.m == 10_000_000)),
    ("first part, odd", |part| off(part, 1, !even(part) && part.m == 10_000_000)),
    ("last part, even", |part| off(part, -1, even(part) && part.m == 99_999_999)),
    ("last part, odd", |part| off(part, -1, !even(part) && part.m == 99_999_999)),
    ("second part", |part| off(part, -1, part.m == 10_000_001)),
    ("last part but one", |part| off(part, -1, part.m == 99_999_998)),
    ("round roots", |part| off(part, 1, rounded(part.square()) % 1_000 == 0)),
    ("roots below the root of ten", |part| off(part, 1, rounded(part.square()) == 31_622_776)),
    ("roots above the root of ten", |part| off(part, 1, rounded(part.square()) == 31_622_777)),
];

fn exact(part: Part) -> bool {
    is_square(part.square())
}

/// What the exponent of a root has more than it must, by that of the operand.
const WRONG_EXPONENTS: [(&str, fn(u64) -> i64); 14] = [
    ("one more, odd", |a| (a % 2 == 1) as i64),
    ("one less, odd", |a| -((a % 2 == 1) as i64)),
    ("one more, even", |a| (a % 2 == 0) as i64),
    ("one more, below 50", |a| (a < 50) as i64),
    ("one less, below 50", |a| -((a < 50) as i64)),
    ("one more, odd and below 50", |a| (a < 50 && a % 2 == 1) as i64),
    ("one less, odd and above 50", |a| -((a > 50 && a % 2 == 1) as i64)),
    ("00", |a| (a == 0) as i64),
    ("01", |a| (a == 1) as i64),
    ("49", |a| -((a == 49) as i64)),
    ("50", |a| (a == 50) as i64),
    ("51", |a| (a == 51) as i64),
    ("98", |a| (a == 98) as i64),
    ("99", |a| (a == 99) as i64),
];

/// An answer of another kind than the right one, where there is one.
type Another = fn(u64) -> Option<Vec<u64>>;

const WRONG_ANSWERS: [(&str, Another); 17] = [
    ("zero refused", |operand| (operand == 0).then(|| vec![26, 0])),
    ("zero no number", |operand| (operand == 0).then(|| vec![24, 0])),
    ("zero as one", |operand| (operand == 0).then(|| vec![0, 1_000_000_050])),
    ("zero with a middle exponent", |operand| (operand == 0).then(|| vec![0, 25])),
    ("minus let in", |operand| minus(operand).map(|x| right(x.m * 100 + x.a))),
    ("minus kept", |operand| minus(operand).map(|x| vec![0, right(x.m * 100 + x.a)[1] + MINUS])),
    ("minus as zero", |operand| minus(operand).map(|_| vec![0, 0])),
    ("minus as no number", |operand| minus(operand).map(|_| vec![24, 0])),
    ("minus exact ones let in", |operand| {
        minus(operand).filter(|x| exact(Part::of(*x))).map(|x| right(x.m * 100 + x.a))
    }),
    ("minus zero let in", |operand| (operand == MINUS).then(|| vec![0, 0])),
    ("minus zero as minus", |operand| (operand == MINUS).then(|| vec![26, 0])),
    ("minus judged first", |operand| (MINUS..2 * MINUS).contains(&operand).then_some(vec![26, 0])),
    ("no numbers as zero", |operand| (operand < 1_000_000_000).then(|| vec![0, 0])),
    ("exponent alone as zero", |operand| (operand < 100).then(|| vec![0, 0])),
    ("signs let in above the word", |operand| Some(right(operand % (2 * MINUS)))),
    ("digits alone", |operand| (operand >= 2 * MINUS).then(|| right(operand % MINUS))),
    ("40 bits alone", |operand| Some(right(operand % (1 << 40)))),
];

fn right(operand: u64) -> Vec<u64> {
    answer(Case { operation: SQRT, a: operand, b: 0 })
}

fn minus(operand: u64) -> Option<Number> {
    Word::of_cell(operand)?.number().filter(|number| number.minus)
}

/// The right answer, where there is a root with that one changed.
fn changed(operand: u64, change: impl Fn(Number, Number) -> Number) -> Vec<u64> {
    let mut answer = right(operand);
    if let Some(x) = positive(operand) {
        let root = Word::of_cell(answer[1]).and_then(Word::number).expect("a root");
        answer[1] = change(x, root).word().cell();
    }
    answer
}

fn told(name: &str, wrong: impl Fn(u64) -> Vec<u64>) {
    for seed in 1..4 {
        let mut operands = (0..FIRST).map(|index| case(seed, index).a);
        assert!(operands.any(|operand| wrong(operand) != right(operand)), "{name}, seed {seed}");
    }
}

#[test]
fn the_right_digits_are_right() {
    for operand in (0..20_000).map(|index| case(1, index).a) {
        let same = changed(operand, |x, root| Number { m: off(Part::of(x), 1, false), ..root });
        assert_eq!(same, right(operand), "{operand}");
    }
}

#[test]
fn wrong_digits_are_told() {
    for (name, digits) in WRONG_DIGITS {
        told(name, |operand| changed(operand, |x, root| Number { m: digits(Part::of(x)), ..root }));
    }
}

#[test]
fn wrong_exponents_are_told() {
    for (name, more) in WRONG_EXPONENTS {
        let wrong = |x: Number, root: Number| root.a.saturating_add_signed(more(x.a));
        told(name, |operand| changed(operand, |x, root| Number { a: wrong(x, root), ..root }));
    }
}

#[test]
fn answers_of_another_kind_are_told() {
    for (name, another) in WRONG_ANSWERS {
        told(name, |operand| another(operand).unwrap_or_else(|| right(operand)));
    }
}
