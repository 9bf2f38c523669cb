//! Which cells of a drum are marked, 000 aside.

use crate::chance::Chance;
use crate::model::drum::CELLS;

const FIRST: usize = 1;
const LAST: usize = CELLS - 1;

#[derive(Clone, Copy, Debug, PartialEq, Eq)]
pub enum Layout {
    None,
    Only(usize),
    All,
    AllBut(usize),
    EverySecond {
        odd: bool,
    },
    /// One run of so many cells, from 001 on, up to 999, at both ends, or between.
    AtStart(usize),
    AtEnd(usize),
    AtBothEnds(usize),
    Between(usize),
    /// Each cell by chance, so many of a thousand.
    Dense(u64),
    /// Runs and gaps of any lengths up to these.
    Runs {
        longest: u64,
        gap: u64,
    },
}

/// Full cards, and a little more and less.
const LENGTHS: [usize; 15] = [1, 2, 3, 4, 5, 6, 7, 8, 9, 10, 11, 15, 16, 20, 21];

/// All that are not left to chance.
pub fn named() -> Vec<Layout> {
    let mut all = vec![Layout::None, Layout::All, Layout::Only(FIRST), Layout::Only(LAST)];
    all.extend([FIRST, 2, 5, 6, 500, LAST - 1, LAST].map(Layout::AllBut));
    all.extend([false, true].map(|odd| Layout::EverySecond { odd }));
    for length in LENGTHS {
        all.extend([Layout::AtStart(length), Layout::AtEnd(length)]);
        all.extend([Layout::AtBothEnds(length), Layout::Between(length)]);
    }
    all
}

/// From nearly nothing to nearly all.
pub fn drawn(chance: &mut Chance) -> Layout {
    if chance.percent(50) {
        let dense = [1, 3, 10, 30, 100, 200, 500, 800, 900, 970, 990, 999];
        return Layout::Dense(chance.pick_or(&dense, 0, 1_000));
    }
    let longest = chance.pick(&[2, 4, 5, 6, 7, 11, 12, 30, 200]);
    Layout::Runs { longest, gap: chance.pick(&[1, 2, 3, 10, 50, 300]) }
}

/// The marks, with that of 000 left 0.
pub fn marks(layout: Layout, chance: &mut Chance) -> Vec<u8> {
    let mut marks = vec![0; CELLS];
    match layout {
        Layout::None => {}
        Layout::Only(cell) => marks[cell] = 1,
        Layout::All => marks[FIRST..].fill(1),
        Layout::AllBut(cell) => {
            marks[FIRST..].fill(1);
            marks[cell] = 0;
        }
        Layout::EverySecond { odd } => {
            let from = if odd { 1 } else { 2 };
            marks[from..].iter_mut().step_by(2).for_each(|mark| *mark = 1);
        }
        Layout::AtStart(length) => marks[FIRST..FIRST + length].fill(1),
        Layout::AtEnd(length) => marks[CELLS - length..].fill(1),
        Layout::AtBothEnds(length) => {
            marks[FIRST..FIRST + length].fill(1);
            marks[CELLS - length..].fill(1);
        }
        Layout::Between(length) => {
            let start = chance.between(2, (LAST - length) as u64) as usize;
            marks[start..start + length].fill(1);
        }
        Layout::Dense(parts) => {
            marks[FIRST..].iter_mut().for_each(|mark| *mark = (chance.below(1_000) < parts) as u8)
        }
        Layout::Runs { longest, gap } => {
            let mut at = FIRST + chance.below(gap + 1) as usize;
            while at < CELLS {
                let behind = (at + chance.between(1, longest) as usize).min(CELLS);
                marks[at..behind].fill(1);
                at = behind + chance.between(1, gap) as usize;
            }
        }
    }
    marks
}

/// The runs of marked cells in ascending order, each with its start and length; 000 is in none.
pub fn runs(marks: &[u8]) -> Vec<(usize, usize)> {
    let mut runs: Vec<(usize, usize)> = Vec::new();
    for cell in FIRST..CELLS {
        if marks[cell] == 0 {
            continue;
        }
        match runs.last_mut() {
            Some((start, length)) if *start + *length == cell => *length += 1,
            _ => runs.push((cell, 1)),
        }
    }
    runs
}

/// The length of the deck: a word has 11 bytes, what else a card has is 11 bytes too, and T has 7.
pub fn deck_length(marks: &[u8]) -> u64 {
    let elevens = |&(_, length): &(usize, usize)| length + length.div_ceil(5);
    11 * runs(marks).iter().map(elevens).sum::<usize>() as u64 + 7
}

#[cfg(test)]
mod tests {
    use super::*;
    use crate::sessions::makes::LONGEST;

    #[test]
    fn lengths_of_decks() {
        let chance = &mut Chance::new(1);
        let mut length = |layout| deck_length(&marks(layout, chance));
        assert_eq!(length(Layout::None), 7);
        assert_eq!(length(Layout::Only(999)), 29);
        assert_eq!(length(Layout::All), LONGEST);
        assert_eq!(length(Layout::EverySecond { odd: true }), 11_007);
        assert_eq!(length(Layout::EverySecond { odd: false }), 10_985);
        assert_eq!(length(Layout::AtBothEnds(6)), 2 * (66 + 22) + 7);
        for layout in named() {
            assert!(length(layout) <= LONGEST);
        }
        for _ in 0..1_000 {
            let layout = drawn(chance);
            let marks = marks(layout, chance);
            assert!(marks[0] == 0 && marks.len() == CELLS && deck_length(&marks) <= LONGEST);
        }
    }
}
