//! What the root of an operand comes to: the list of all that the judge requires. It is found out
//! from the operand and from the model's answer alone.

use super::near::{self, Place, NEAR, PLACES};
use super::part::{Parity, Part, PARITIES};
use super::turns::{BESIDE, END};
use crate::model::word::{Number, Word, MINUS};

#[derive(Clone, Copy, Debug, PartialEq, Eq, PartialOrd, Ord)]
pub enum Seen {
    Zero,
    MinusZero,
    /// Another word that is no number, with this sign.
    PlusStranger,
    MinusStranger,
    /// No word at all.
    NoWord,
    Negative(Parity),
    /// A root of a number with this exponent.
    Exponent(u64),
    /// The roots of the lowest number and of the highest.
    Lowest,
    Highest,
    Root(Turn, Parity),
}

/// What holds of a root.
#[derive(Clone, Copy, Debug, PartialEq, Eq, PartialOrd, Ord)]
pub enum Turn {
    RoundedDown,
    RoundedUp,
    /// As near as it can come, and among the near ones.
    Nearest(Place),
    Near(Place),
    Exact,
    /// The part lies so many places above that of an exact root, or below it.
    BesideExact(i64),
    /// The root and that of the next part, or of the one before, have a round number between them.
    BelowRound,
    AboveRound,
    /// The part is the first or the last, or one of many at that end.
    First,
    Last,
    FirstMany,
    LastMany,
}

use Turn::*;

/// All turns; for those that the sweep goes through, how many leading parts there are with even
/// exponents and with odd ones.
pub fn turns() -> Vec<(Turn, Option<[u64; 2]>)> {
    let mut turns = vec![(RoundedDown, None), (RoundedUp, None), (First, None), (Last, None)];
    turns.extend(PLACES.map(|place| (Nearest(place), None)));
    let near = [[5_637, 1_748], [5_225, 1_630], [7_086, 2_279], [4_747, 1_431]];
    turns.extend(PLACES.into_iter().zip(near).map(|(place, all)| (Near(place), Some(all))));
    turns.extend([
        (BesideExact(-2), Some([2_162, 6_838])),
        (BesideExact(-1), Some([2_162, 6_838])),
        (Exact, Some([2_163, 6_837])),
        (BesideExact(1), Some([2_163, 6_837])),
        (BesideExact(2), Some([2_163, 6_837])),
        (BelowRound, Some([19_460, 61_540])),
        (AboveRound, Some([19_460, 61_540])),
        (FirstMany, Some([50_000; 2])),
        (LastMany, Some([50_000; 2])),
    ]);
    turns
}

/// All but the turns.
pub fn others() -> Vec<Seen> {
    use Seen::*;
    let mut all = vec![Zero, MinusZero, PlusStranger, MinusStranger, NoWord, Lowest, Highest];
    all.extend(PARITIES.map(Negative));
    all.extend((0..100).map(Exponent));
    all
}

/// The positive number that an operand is, if it is one.
pub fn positive(operand: u64) -> Option<Number> {
    let number = Word::of_cell(operand)?.number()?;
    (!number.minus && !number.is_zero()).then_some(number)
}

/// All that holds of an operand, of which the model's root has these digits.
pub fn seen(operand: u64, root: u64) -> Vec<Seen> {
    let Some(x) = positive(operand) else { return vec![of_no_root(operand)] };
    let part = Part::of(x);
    let mut all = vec![Seen::Exponent(x.a)];
    all.extend((operand == 1_000_000_000).then_some(Seen::Lowest));
    all.extend((operand == 9_999_999_999).then_some(Seen::Highest));
    all.extend(turns_of(part, root).into_iter().map(|turn| Seen::Root(turn, part.parity)));
    all
}

fn of_no_root(operand: u64) -> Seen {
    let Some(word) = Word::of_cell(operand) else { return Seen::NoWord };
    match word.number() {
        Some(Number { minus: true, a, .. }) => Seen::Negative(PARITIES[(a % 2) as usize]),
        Some(_) => Seen::Zero,
        None if operand == MINUS => Seen::MinusZero,
        None if word.minus => Seen::MinusStranger,
        None => Seen::PlusStranger,
    }
}

fn turns_of(part: Part, root: u64) -> Vec<Turn> {
    let mut turns = Vec::new();
    let from_whole = near::apart(part, 2 * root);
    turns.push(match from_whole {
        0 => Exact,
        1.. => RoundedDown,
        _ => RoundedUp,
    });
    let half = if from_whole > 0 { 2 * root + 1 } else { 2 * root - 1 };
    for twice in [2 * root, half] {
        let apart = near::apart(part, twice);
        if apart != 0 && apart.unsigned_abs() <= NEAR {
            let place = Place::of(twice, apart);
            turns.push(Near(place));
            turns.extend((apart == place.least()).then_some(Nearest(place)));
        }
    }
    turns.extend(beside_exact(part, root));
    turns.extend(beside_round(part, root));
    let (first, last) = (part.m - 10_000_000, 99_999_999 - part.m);
    turns.extend((first == 0).then_some(First));
    turns.extend((last == 0).then_some(Last));
    turns.extend((first < END).then_some(FirstMany));
    turns.extend((last < END).then_some(LastMany));
    turns
}

/// A part of nine digits counts too: it is the first one of the next exponent.
fn beside_exact(part: Part, root: u64) -> Option<Turn> {
    let exact = (root + 5_000) / 10_000 * 10_000;
    let by = part.m as i64 - (exact * exact / part.parity.unit()) as i64;
    let least = exact >= 10_000_000 && exact * exact % part.parity.unit() == 0;
    (least && by != 0 && by.abs() <= BESIDE).then_some(BesideExact(by))
}

fn beside_round(part: Part, root: u64) -> Option<Turn> {
    let round = (root + 500) / 1_000 * 1_000;
    let (square, unit) = (round * round, part.parity.unit());
    if square % unit == 0 {
        return None;
    }
    match square / unit {
        below if below == part.m => Some(BelowRound),
        below if below + 1 == part.m => Some(AboveRound),
        _ => None,
    }
}

#[cfg(test)]
mod tests {
    use super::*;
    use crate::numbers::answer;
    use crate::numbers::roots::cases::case;
    use std::collections::BTreeSet;

    fn found(seed: u64, count: u64) -> BTreeSet<Seen> {
        let cases = (0..count).map(|index| case(seed, index));
        cases.flat_map(|case| seen(case.a, answer(case)[1] / 100)).collect()
    }

    fn reachable() -> BTreeSet<Seen> {
        let turns = turns().into_iter();
        let roots = turns.flat_map(|(turn, _)| PARITIES.map(|parity| Seen::Root(turn, parity)));
        roots.chain(others()).collect()
    }

    #[test]
    fn the_first_cases_show_everything_listed_and_nothing_else_is_shown() {
        for seed in 1..4 {
            assert_eq!(found(seed, 500), reachable());
        }
        assert_eq!(found(1, 50_000), reachable());
    }

    fn root_of(m: u64, parity: Parity, root: u64) -> Vec<Turn> {
        turns_of(Part { m, parity }, root)
    }

    #[test]
    fn what_single_roots_are() {
        use Parity::*;
        let half = Place::BelowHalf;
        assert_eq!(root_of(20_000_000, Even, 14_142_136), [RoundedUp]);
        assert_eq!(root_of(10_000_000, Even, 10_000_000), [Exact, First, FirstMany]);
        assert_eq!(
            root_of(99_999_999, Odd, 99_999_999),
            [RoundedDown, Near(half), Nearest(half), BesideExact(-1), Last, LastMany]
        );
        assert_eq!(root_of(40_000_001, Even, 20_000_000), [RoundedDown, BesideExact(1)]);
        assert_eq!(root_of(10_002_000, Even, 10_001_000), [RoundedUp, BelowRound, FirstMany]);
        assert_eq!(root_of(10_002_001, Even, 10_001_000), [RoundedDown, AboveRound, FirstMany]);
    }
}
