//! What a sum or a difference comes to with the digits that it loses: the list of all that the judge
//! requires, of sums and of differences.

use super::cases::{Case, ADD, SUB};
use super::outcome;
use crate::model::arithmetic::OutOfRange;
use crate::model::operation::{lost_below, OfTwo, Reckoned};
use crate::model::stop::Reason;
use crate::model::word::{Number, Word};

#[derive(Clone, Copy, Debug, PartialEq, Eq, PartialOrd, Ord)]
pub enum Seen {
    /// So many digits went, and none of the three numbers is zero.
    Lost(u64),
    /// Three digits went or more: the operands have the same exponent, or that of the first or of the
    /// second is the larger one.
    Level,
    FirstHigher,
    SecondHigher,
    /// Three digits went or more, and the result has this sign.
    PlusLeft,
    MinusLeft,
    /// Three digits went or more, and the result's exponent is 00.
    LowestLeft,
    /// Near equals that are added up, and no digit goes.
    AddedUp,
    /// The result's exponent is above both.
    Risen,
    /// The exact result is below the larger operand, a power of ten, and is rounded to it.
    TakenBack,
    /// The result is zero, and no operand is.
    AllGone,
    ZeroFirst,
    ZeroSecond,
    BothZero,
    /// The result is below the range: where it could be told, at most two digits would be lost, or
    /// more; or more, and by as little as can be.
    BelowWithFew,
    BelowWithMany,
    JustBelow,
    Above,
}

impl Seen {
    /// Whether many digits go, or would; of these each case is one and no more.
    pub fn of_near_equals(self) -> bool {
        match self {
            Lost(lost) => lost >= MANY,
            _ => self == BelowWithMany,
        }
    }
}

use Seen::*;

pub const REACHABLE: [Seen; 26] = [
    Lost(0),
    Lost(1),
    Lost(2),
    Lost(3),
    Lost(4),
    Lost(5),
    Lost(6),
    Lost(7),
    Lost(8),
    Level,
    FirstHigher,
    SecondHigher,
    PlusLeft,
    MinusLeft,
    LowestLeft,
    AddedUp,
    Risen,
    TakenBack,
    AllGone,
    ZeroFirst,
    ZeroSecond,
    BothZero,
    BelowWithFew,
    BelowWithMany,
    JustBelow,
    Above,
];

/// Three digits and more are many.
const MANY: u64 = 3;

/// All that holds of a sum or a difference; nothing where an operand is no number.
pub fn seen(case: Case) -> Vec<Seen> {
    let words = (Word::of_cell(case.a), Word::of_cell(case.b));
    let (Some(a), Some(b)) = words else { return Vec::new() };
    let (Some(x), Some(y)) = (a.number(), b.number()) else { return Vec::new() };
    let holding = match outcome(case) {
        Ok(reckoned) => in_range(case, x, y, reckoned),
        Err(Reason::Range(OutOfRange::Below)) => {
            let operation = if case.operation == SUB { OfTwo::Sub } else { OfTwo::Add };
            let lost = lost_below(operation, a, b);
            let just = x.a.max(y.a) + 1 == lost;
            vec![
                (lost < MANY, BelowWithFew),
                (lost >= MANY, BelowWithMany),
                (lost >= MANY && just, JustBelow),
            ]
        }
        Err(_) => vec![(true, Above)],
    };
    holding.into_iter().filter(|(holds, _)| *holds).map(|(_, seen)| seen).collect()
}

fn in_range(case: Case, x: Number, y: Number, reckoned: Reckoned) -> Vec<(bool, Seen)> {
    let Reckoned { word, lost } = reckoned;
    let result = word.number().expect("a result is a number");
    if x.is_zero() || y.is_zero() {
        let (first, second) = (x.is_zero(), y.is_zero());
        return vec![
            (first && second, BothZero),
            (first && !second, ZeroFirst),
            (second && !first, ZeroSecond),
        ];
    }
    if result.is_zero() {
        return vec![(true, AllGone)];
    }
    let (many, larger) = (lost >= MANY, if x.a > y.a { x } else { y });
    let turned = Case { operation: if case.operation == ADD { SUB } else { ADD }, ..case };
    let near = x.a.abs_diff(y.a) < 2 && outcome(turned).is_ok_and(|other| other.lost >= MANY);
    let power = larger.m == Number::LEAST && result.m == Number::LEAST;
    vec![
        (true, Lost(lost)),
        (many && x.a == y.a, Level),
        (many && x.a > y.a, FirstHigher),
        (many && x.a < y.a, SecondHigher),
        (many && !result.minus, PlusLeft),
        (many && result.minus, MinusLeft),
        (many && result.a == 0, LowestLeft),
        (near && lost == 0, AddedUp),
        (result.a > larger.a, Risen),
        (power && result.a == larger.a && taken(case), TakenBack),
    ]
}

/// Whether the operands' magnitudes are taken from each other.
fn taken(Case { operation, a, b }: Case) -> bool {
    (Word::of_cell(a).map(|word| word.minus) == Word::of_cell(b).map(|word| word.minus))
        == (operation == SUB)
}

#[cfg(test)]
mod tests {
    use super::*;
    use crate::numbers::cases::case;
    use std::collections::BTreeSet;

    #[test]
    fn everything_listed_is_seen_and_nothing_else() {
        for operation in [ADD, SUB] {
            let cases = (0..5_000).map(|index| case(1, index));
            let found: BTreeSet<Seen> =
                cases.filter(|case| case.operation == operation).flat_map(seen).collect();
            assert_eq!(found, BTreeSet::from(REACHABLE));
        }
    }
}
