//! What makings came to, for counting what was covered.

use super::law::parts;
use super::layout::{deck_length, runs};
use super::LEAST;
use crate::model::drum::{judge, CELLS};
use crate::model::stop::Reason;
use crate::model::word::{Word, MINUS};
use crate::sessions::message::{Make, Message};
use crate::sessions::reach::lines_of_10;

/// The first order that is asked for.
#[derive(Clone, Copy, Debug, PartialEq, Eq, PartialOrd, Ord)]
pub enum First {
    Good,
    Zero,
    Above,
}

/// Everything that speaks against a making.
#[derive(Clone, Copy, Debug, PartialEq, Eq, PartialOrd, Ord)]
pub struct Refused {
    pub ten: Option<Reason>,
    pub first: First,
    /// A problem number above 999.
    pub problem: bool,
    /// Less room than the deck needs, or than any deck needs where there is none.
    pub short: bool,
}

/// Where a run of marked cells lies.
#[derive(Clone, Copy, Debug, PartialEq, Eq, PartialOrd, Ord)]
pub enum At {
    Start,
    Between,
    End,
}

/// How a number is above 999.
#[derive(Clone, Copy, Debug, PartialEq, Eq, PartialOrd, Ord)]
pub enum Far {
    ByOne,
    /// Its low bits, so many of them, would be good by themselves.
    Low16,
    Low32,
    /// All bits are set.
    Most,
    Any,
}

/// The room, beside what the deck needs.
#[derive(Clone, Copy, Debug, PartialEq, Eq, PartialOrd, Ord)]
pub enum Room {
    None,
    Short,
    OneShort,
    Enough,
    More,
}

#[derive(Clone, Copy, Debug, PartialEq, Eq, PartialOrd, Ord)]
pub enum Seen {
    /// Of decks that were made: no cell but 000 may be marked, all are, every second one is, all but
    /// one; and the only one is 001, or 999.
    NoCell {
        with_000: bool,
    },
    AllCells {
        with_000: bool,
    },
    EverySecond {
        odd: bool,
    },
    AllButOne,
    Only001,
    Only999,
    /// A run of so many cells, or of more than 11, which are told as 12.
    Run {
        at: At,
        length: usize,
    },
    /// More than 255 cards.
    ManyCards,
    /// Among the marked cells: minus zero, another word that is no number, the largest word.
    MinusZero,
    NoNumber,
    LargestWord,
    /// Among the cells that are not marked.
    UnmarkedNoWord,
    FirstOrderCell {
        marked: bool,
    },
    FirstOrder(u64),
    Problem(u64),
    /// Where nothing else speaks against it.
    Room(Room),
    Refused(Refused),
    /// A mark above 1, or a marked cell with no word, in cell 000, between, and in 999.
    Damage {
        mark: bool,
        at: At,
    },
    /// Where nothing else speaks against it.
    FirstAbove(Far),
    ProblemAbove(Far),
}

const ENDS: [At; 3] = [At::Start, At::Between, At::End];
pub const FAR: [Far; 5] = [Far::ByOne, Far::Low16, Far::Low32, Far::Most, Far::Any];

/// A run of more cells than this is a long one.
const LONG: usize = 11;

/// Every line of 10 with everything else, and everything else with itself. What stands alone comes
/// first, then two at once, and so on.
pub fn refusals() -> Vec<Refused> {
    let mut all = Vec::new();
    for ten in lines_of_10().into_iter().map(Some).chain([None]) {
        for first in [First::Good, First::Zero, First::Above] {
            for (problem, short) in [(false, false), (true, false), (false, true), (true, true)] {
                all.push(Refused { ten, first, problem, short });
            }
        }
    }
    all.retain(|refused| *refused != GOOD);
    all.sort_by_key(|&Refused { ten, first, problem, short }| {
        [ten.is_some(), first != First::Good, problem, short].into_iter().filter(|&x| x).count()
    });
    all
}

/// Nothing speaks against it.
pub const GOOD: Refused = Refused { ten: None, first: First::Good, problem: false, short: false };

/// All that can be reached.
pub fn reachable() -> Vec<Seen> {
    let mut all = vec![Seen::AllButOne, Seen::Only001, Seen::Only999, Seen::ManyCards];
    all.extend([false, true].map(|with_000| Seen::NoCell { with_000 }));
    all.extend([false, true].map(|with_000| Seen::AllCells { with_000 }));
    all.extend([false, true].map(|odd| Seen::EverySecond { odd }));
    for length in 1..=LONG + 1 {
        all.extend(ENDS.map(|at| Seen::Run { at, length }));
    }
    all.extend([Seen::MinusZero, Seen::NoNumber, Seen::LargestWord, Seen::UnmarkedNoWord]);
    all.extend([false, true].map(|marked| Seen::FirstOrderCell { marked }));
    all.extend([1, 999].map(Seen::FirstOrder));
    all.extend([0, 999].map(Seen::Problem));
    all.extend([Room::None, Room::Short, Room::OneShort, Room::Enough, Room::More].map(Seen::Room));
    all.extend(refusals().into_iter().map(Seen::Refused));
    for mark in [false, true] {
        all.extend(ENDS.map(|at| Seen::Damage { mark, at }));
    }
    all.extend(FAR.map(Seen::FirstAbove));
    all.extend(FAR.map(Seen::ProblemAbove));
    all
}

/// Tells all that a session came to, each thing once. `made`: the model made the deck.
pub fn seen(session: &[Message], made: bool, saw: &mut dyn FnMut(Seen)) {
    let parts = &parts(session);
    let asked = parts.make;
    let (cells, marks) = (parts.drum.cells.all(), parts.drum.marks.all());
    let ten = judge(&cells, &marks).err();
    let length = if ten.is_none() { deck_length(&marks) } else { LEAST };
    let first = match asked.first_order {
        0 => First::Zero,
        1..=999 => First::Good,
        _ => First::Above,
    };
    let (problem, short) = (asked.problem > 999, asked.room < length);
    let refused = Refused { ten, first, problem, short };
    assert_eq!(made, refused == GOOD, "a deck is made where nothing speaks against it");
    if made {
        of_marks(&marks, saw);
        of_words(&cells, &marks, saw);
        of_numbers(asked, &marks, saw);
    } else {
        saw(Seen::Refused(refused));
        of_refusal(asked, refused, &cells, &marks, saw);
    }
    if (Refused { short: false, ..refused }) == GOOD {
        saw(Seen::Room(match asked.room {
            0 => Room::None,
            room if room + 1 == length => Room::OneShort,
            room if room < length => Room::Short,
            room if room == length => Room::Enough,
            _ => Room::More,
        }));
    }
}

fn of_marks(marks: &[u8], saw: &mut dyn FnMut(Seen)) {
    let (runs, with_000) = (runs(marks), marks[0] == 1);
    let cells: usize = runs.iter().map(|(_, length)| length).sum();
    match (cells, runs.as_slice()) {
        (0, _) => saw(Seen::NoCell { with_000 }),
        (999, _) => saw(Seen::AllCells { with_000 }),
        (998, _) => saw(Seen::AllButOne),
        (500, runs) if runs.len() == 500 => saw(Seen::EverySecond { odd: true }),
        (499, [(2, 1), .., (998, 1)]) if runs.len() == 499 => saw(Seen::EverySecond { odd: false }),
        (1, [(1, _)]) => saw(Seen::Only001),
        (1, [(999, _)]) => saw(Seen::Only999),
        _ => {}
    }
    if runs.iter().map(|(_, length)| length.div_ceil(5)).sum::<usize>() > 255 {
        saw(Seen::ManyCards);
    }
    let mut told = [[false; LONG + 2]; 3];
    for (start, length) in runs {
        let at = match start {
            1 => At::Start,
            _ if start + length == CELLS => At::End,
            _ => At::Between,
        };
        let length = length.min(LONG + 1);
        if !std::mem::replace(&mut told[at as usize][length], true) {
            saw(Seen::Run { at, length });
        }
    }
}

fn of_words(cells: &[u64], marks: &[u8], saw: &mut dyn FnMut(Seen)) {
    let (mut minus_zero, mut no_number, mut largest, mut unmarked) = (false, false, false, false);
    for (&number, &mark) in cells.iter().zip(marks).skip(1) {
        let word = Word::of_cell(number);
        if mark == 0 {
            unmarked |= word.is_none();
            continue;
        }
        minus_zero |= number == MINUS;
        largest |= number == 2 * MINUS - 1;
        no_number |= number != MINUS && word.is_some_and(|word| word.number().is_none());
    }
    let told = [
        (minus_zero, Seen::MinusZero),
        (no_number, Seen::NoNumber),
        (largest, Seen::LargestWord),
        (unmarked, Seen::UnmarkedNoWord),
    ];
    told.into_iter().filter(|(holds, _)| *holds).for_each(|(_, seen)| saw(seen));
}

fn of_numbers(asked: Make, marks: &[u8], saw: &mut dyn FnMut(Seen)) {
    saw(Seen::FirstOrderCell { marked: marks[asked.first_order as usize] == 1 });
    if let 1 | 999 = asked.first_order {
        saw(Seen::FirstOrder(asked.first_order));
    }
    if let 0 | 999 = asked.problem {
        saw(Seen::Problem(asked.problem));
    }
}

fn of_refusal(
    asked: Make,
    refused: Refused,
    cells: &[u64],
    marks: &[u8],
    saw: &mut dyn FnMut(Seen),
) {
    let place = |cell: usize| match cell {
        0 => At::Start,
        999 => At::End,
        _ => At::Between,
    };
    match refused.ten {
        Some(Reason::MarkAboveOne(_)) => {
            let cell = marks.iter().position(|&mark| mark > 1).expect("a mark above 1");
            saw(Seen::Damage { mark: true, at: place(cell) });
        }
        Some(Reason::MarkedCellNoWord(_)) => {
            let no_word = |cell: &usize| marks[*cell] == 1 && cells[*cell] >= 2 * MINUS;
            let cell = (0..CELLS).find(no_word).expect("a marked cell with no word");
            saw(Seen::Damage { mark: false, at: place(cell) });
        }
        _ => {}
    }
    if refused == (Refused { first: First::Above, ..GOOD }) {
        saw(Seen::FirstAbove(far(asked.first_order, 1)));
    }
    if refused == (Refused { problem: true, ..GOOD }) {
        saw(Seen::ProblemAbove(far(asked.problem, 0)));
    }
}

/// How a number is above 999, where `least` is the least good one.
fn far(number: u64, least: u64) -> Far {
    let low = |bits: u64| (least..=999).contains(&(number % bits));
    match number {
        1_000 => Far::ByOne,
        u64::MAX => Far::Most,
        _ if low(1 << 32) => Far::Low32,
        _ if low(1 << 16) => Far::Low16,
        _ => Far::Any,
    }
}

#[cfg(test)]
mod tests {
    use super::*;
    use crate::sessions::bench::{Bench, Outcome};
    use crate::sessions::makes::session;
    use std::collections::BTreeSet;

    #[test]
    fn makings_reach_all_that_is_listed_and_nothing_else() {
        let listed: BTreeSet<Seen> = reachable().into_iter().collect();
        assert_eq!(listed.len(), reachable().len());
        for seed in 1..4 {
            let mut reached = BTreeSet::new();
            for session in (0..1_000).map(|index| session(seed, index)) {
                let mut bench = Bench::default();
                let outcomes = session.iter().filter_map(|asked| bench.feed(asked, &mut |_| {}));
                let made = outcomes.fold(false, |made, outcome| {
                    made | matches!(outcome, Outcome::Make { made: Ok(_), .. })
                });
                seen(&session, made, &mut |seen| {
                    reached.insert(seen);
                });
            }
            assert_eq!(reached, listed);
        }
    }
}
