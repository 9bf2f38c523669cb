//! The operations on numbers: the exact result, rounded once.

use super::natural::{power_of_ten, Natural};
use super::nearest::{nearest, Exact};
use super::word::Number;

/// The exponent after rounding does not fit two digits.
#[derive(Clone, Copy, Debug, PartialEq, Eq, PartialOrd, Ord)]
pub enum OutOfRange {
    Below,
    Above,
}

/// A number counts whole units of 10 to the power -57.
const UNIT: usize = 57;

fn units(x: Number) -> Natural {
    power_of_ten(x.a as usize).times_small(x.m)
}

pub fn add(x: Number, y: Number) -> Result<Number, OutOfRange> {
    let (first, second) = (units(x), units(y));
    let (minus, sum) = if x.minus == y.minus {
        (x.minus, first.plus(&second))
    } else if first >= second {
        (x.minus, first.minus(&second))
    } else {
        (y.minus, second.minus(&first))
    };
    rounded(minus, sum, Natural::new(1))
}

pub fn sub(x: Number, y: Number) -> Result<Number, OutOfRange> {
    add(x, opposite(y))
}

/// How many digits went when a sum or a difference of the first two was the third: the larger
/// exponent of the two less the result's. None went where that is negative, nor where one of the
/// three is zero.
pub fn lost(x: Number, y: Number, result: Number) -> u64 {
    if x.is_zero() || y.is_zero() || result.is_zero() {
        return 0;
    }
    x.a.max(y.a).saturating_sub(result.a)
}

pub fn mpy(x: Number, y: Number) -> Result<Number, OutOfRange> {
    rounded(x.minus != y.minus, units(x).times(&units(y)), *power_of_ten(UNIT))
}

/// The divisor is not zero.
pub fn div(x: Number, y: Number) -> Result<Number, OutOfRange> {
    rounded(x.minus != y.minus, units(x).times(power_of_ten(UNIT)), units(y))
}

pub fn ngmpy(x: Number, y: Number) -> Result<Number, OutOfRange> {
    mpy(x, y).map(opposite)
}

/// The number is not negative.
pub fn sqrt(x: Number) -> Number {
    if x.is_zero() {
        return x;
    }
    let square = units(x).times(power_of_ten(UNIT));
    let (m, e) = nearest(&Exact::Root(square));
    in_range(false, m, e).expect("a root lies nearer to 1 than its square")
}

pub fn abs(x: Number) -> Number {
    Number { minus: false, ..x }
}

/// Zero has no minus.
fn opposite(x: Number) -> Number {
    Number { minus: !x.minus && !x.is_zero(), ..x }
}

/// The number nearest `top / bottom` units; zero is always plus zero.
fn rounded(minus: bool, top: Natural, bottom: Natural) -> Result<Number, OutOfRange> {
    if top.is_zero() {
        return Ok(Number::ZERO);
    }
    let (m, e) = nearest(&Exact::Ratio(top, bottom));
    in_range(minus, m, e)
}

/// The exponent is judged here, so only after rounding.
fn in_range(minus: bool, m: u64, e: i64) -> Result<Number, OutOfRange> {
    match e {
        i64::MIN..=-1 => Err(OutOfRange::Below),
        0..=99 => Ok(Number { minus, m, a: e as u64 }),
        100.. => Err(OutOfRange::Above),
    }
}
