//! The sessions: one for each index of a stream. A drum, a deck made of it, another drum with no mark,
//! and the deck loaded on that. Of a refused making nothing is left to load, and the load is refused.

use super::layout::{deck_length, drawn, marks, named, Layout};
use super::seen::{refusals, Far, First, Refused, FAR, GOOD};
use super::{LEAST, LONGEST};
use crate::chance::Chance;
use crate::decks::build::any_word;
use crate::model::drum::CELLS;
use crate::model::state::NUMBERS;
use crate::model::stop::Reason;
use crate::sessions::draw::wrong::{above_one, no_word, wrong_length};
use crate::sessions::message::{Begin, Cells, Make, Marks, Message};
use crate::sessions::twin::any;

/// Marks this stream apart from the others of the same seed.
const KIND: u64 = 6;

/// Of five sessions in a row one has a named layout and one a reason to be refused.
const CYCLE: u64 = 5;

pub fn session(seed: u64, index: u64) -> Vec<Message> {
    let chance = &mut Chance::of_case(seed, KIND, index);
    let (round, turn) = ((index / CYCLE) as usize, index % CYCLE);
    let (drum, make) = match turn {
        0 => of_layout(round, chance),
        1 => refused(round, chance),
        _ => {
            let drum = Drum::of(drawn(chance), chance.below(2), chance);
            let room = match chance.below(10) {
                0 => chance.pick_or(&[0], 0, drum.length - 1),
                1 => drum.length - 1,
                2..=4 => drum.length,
                _ => ample(drum.length, chance),
            };
            let make = good(&drum, room, chance);
            (drum, make)
        }
    };
    vec![
        drum.begin(chance),
        Message::Make(make),
        another(chance),
        Message::TakeMade,
        Message::Load { traced: chance.pick_or(&[0, 1], 0, u64::MAX - 1) },
        Message::EndOfSession,
    ]
}

struct Drum {
    cells: Vec<u64>,
    marks: Vec<u8>,
    cells_length: usize,
    marks_length: usize,
    /// That of its deck.
    length: u64,
}

impl Drum {
    /// Marked cells hold any words, the others any numbers.
    fn of(layout: Layout, mark_000: u64, chance: &mut Chance) -> Drum {
        let mut marks = marks(layout, chance);
        marks[0] = mark_000 as u8;
        let word = |&mark: &u8| if mark == 1 { any_word(chance).cell() } else { any(chance) };
        let cells = marks.iter().map(word).collect();
        let length = deck_length(&marks);
        Drum { cells, marks, cells_length: CELLS, marks_length: CELLS, length }
    }

    /// A drum or marks of another length are sent by what is marked alone.
    fn begin(self, chance: &mut Chance) -> Message {
        let Drum { cells, marks, cells_length, marks_length, .. } = self;
        if (cells_length, marks_length) == (CELLS, CELLS) {
            let (cells, marks) = (Cells::Full(cells), Marks::Full(marks));
            return Message::Begin(Begin { cells, marks, state: Vec::new() });
        }
        let marked = (0..CELLS).filter(|&cell| marks[cell] != 0);
        let within = |cells: usize| marked.clone().take_while(move |&cell| cell < cells);
        let values = within(cells_length).map(|cell| (cell as u64, cells[cell])).collect();
        let ones = within(marks_length).map(|cell| (cell as u64, marks[cell] as u64)).collect();
        let (length, fill) = (cells_length as u64, any(chance));
        Message::Begin(Begin {
            cells: Cells::Sparse { length, fill, pairs: values },
            marks: Marks::Sparse { length: marks_length as u64, pairs: ones },
            state: Vec::new(),
        })
    }

    /// Makes a line of 10 hold, in this cell where it is one of cells.
    fn damage(&mut self, reason: Reason, cell: usize, chance: &mut Chance) {
        match reason {
            Reason::DrumLength(length) => {
                self.cells_length = wrong_length(length, CELLS as u64, chance) as usize;
                if chance.one_in(3) {
                    self.marks_length = self.cells_length;
                }
            }
            Reason::MarksLength(length) => {
                self.marks_length = wrong_length(length, CELLS as u64, chance) as usize
            }
            Reason::MarkAboveOne(mark) => self.marks[cell] = above_one(mark, chance) as u8,
            Reason::MarkedCellNoWord(by) => {
                self.marks[cell] = 1;
                self.cells[cell] = no_word(by, chance);
            }
            other => panic!("{other:?} is no line of 10"),
        }
    }
}

/// More room than is needed: a little more, as much as any deck needs, and now and then very much.
fn ample(length: u64, chance: &mut Chance) -> u64 {
    match chance.below(32) {
        0 => LONGEST + chance.below(60_000),
        1..=4 => LONGEST + chance.below(2),
        _ => length + chance.pick_or(&[1, 8], 1, 100),
    }
}

/// A first order in its range, in a marked cell and in one that is not, and a problem number.
fn good(drum: &Drum, room: u64, chance: &mut Chance) -> Make {
    let marked: Vec<u64> =
        (1..CELLS).filter(|&cell| drum.marks[cell] == 1).map(|cell| cell as u64).collect();
    let first_order = if marked.is_empty() || chance.percent(40) {
        chance.pick_or(&[1, 999], 1, 999)
    } else {
        chance.pick(&marked)
    };
    Make { room, first_order, problem: chance.pick_or(&[0, 999], 0, 999) }
}

/// Each in turn, with just enough room, with more, and with a byte too few; 000 is marked in every
/// second one, and not when its turn comes again.
fn of_layout(turn: usize, chance: &mut Chance) -> (Drum, Make) {
    let layouts = named();
    let (round, at) = (turn / layouts.len(), turn % layouts.len());
    let drum = Drum::of(layouts[at], (round + at) as u64 % 2, chance);
    let room = match round % 4 {
        0 => drum.length,
        2 => drum.length - 1,
        _ => ample(drum.length, chance),
    };
    let make = good(&drum, room, chance);
    (drum, make)
}

/// First orders and problem numbers by how far they are off, then everything that speaks against a
/// making, alone and with others.
fn aims() -> Vec<(Refused, Option<Far>)> {
    let (first, problem) =
        (Refused { first: First::Above, ..GOOD }, Refused { problem: true, ..GOOD });
    let far = FAR.into_iter().flat_map(|far| [(first, Some(far)), (problem, Some(far))]);
    far.chain(refusals().into_iter().map(|refused| (refused, None))).collect()
}

/// Each of them in turn.
fn refused(turn: usize, chance: &mut Chance) -> (Drum, Make) {
    let aims = aims();
    let (Refused { ten, first, problem, short }, by) = aims[turn % aims.len()];
    let layout = if chance.one_in(4) { chance.pick(&named()) } else { drawn(chance) };
    let mut drum = Drum::of(layout, chance.below(2), chance);
    if let Some(reason) = ten {
        let cell = [0, chance.index(CELLS), CELLS - 1][turn % 3];
        drum.damage(reason, cell, chance);
    }
    // Where there is no deck, room for the least one is not short.
    let length = if ten.is_some() { LEAST } else { drum.length };
    let room = if short {
        chance.pick_or(&[0, length - 1, length - 1], 0, length - 1)
    } else if chance.percent(50) {
        drum.length
    } else {
        ample(drum.length, chance)
    };
    let Make { first_order, problem: number, .. } = good(&drum, room, chance);
    let first_order = match first {
        First::Good => first_order,
        First::Zero => 0,
        First::Above => above_999(by, chance),
    };
    let problem = if problem { above_999(by, chance) } else { number };
    (drum, Make { room, first_order, problem })
}

fn above_999(by: Option<Far>, chance: &mut Chance) -> u64 {
    let low = chance.between(1, 999);
    match by.unwrap_or_else(|| chance.pick(&FAR)) {
        Far::ByOne => 1_000,
        Far::Low16 => chance.between(1, 1 << 15) << 16 | low,
        Far::Low32 => chance.between(1, 1 << 31) << 32 | low,
        Far::Most => u64::MAX,
        Far::Any => chance.next() | 1 << 10,
    }
}

/// A drum with no mark, and a state of any numbers.
fn another(chance: &mut Chance) -> Message {
    let length = CELLS as u64;
    Message::Begin(Begin {
        cells: Cells::Sparse { length, fill: any(chance), pairs: Vec::new() },
        marks: Marks::Sparse { length, pairs: Vec::new() },
        state: (0..NUMBERS).map(|_| any(chance)).collect(),
    })
}

#[cfg(test)]
mod tests {
    use super::*;

    #[test]
    fn a_session_depends_on_seed_and_index_alone() {
        for index in 0..50 {
            assert_eq!(session(3, index), session(3, index));
        }
    }
}
