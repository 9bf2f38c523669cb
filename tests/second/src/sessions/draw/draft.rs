//! A session in the making: first the drum is laid out, then messages follow. The draft does every
//! message on a bench of its own, so that what comes next can depend on what has come.

use std::collections::BTreeMap;

use crate::chance::Chance;
use crate::decks::build::any_word;
use crate::model::calls::Ended;
use crate::model::order::Order;
use crate::model::state::State;
use crate::model::word::Word;
use crate::sessions::bench::{Bench, Outcome};
use crate::sessions::message::{Begin, Cells, Marks, Message};

/// A drum and its marks are 9,000 bytes in full, and each pair is 16.
const FULL: usize = 9_000 / 16;

pub struct Draft {
    /// Cells with a value of their own, and marks that are not 0.
    pub values: BTreeMap<u64, u64>,
    pub marks: BTreeMap<u64, u64>,
    pub fill: u64,
    pub cells_length: u64,
    pub marks_length: u64,
    taken: Vec<bool>,
    messages: Vec<Message>,
    bench: Bench,
}

impl Draft {
    pub fn new(chance: &mut Chance) -> Draft {
        let fill = match chance.below(4) {
            0 => 0,
            1 => 1_000_000_050,
            _ => chance.next() | 1,
        };
        let mut draft = Draft {
            values: BTreeMap::new(),
            marks: BTreeMap::new(),
            fill,
            cells_length: 1_000,
            marks_length: 1_000,
            taken: vec![false; 1_000],
            messages: Vec::new(),
            bench: Bench::default(),
        };
        let word = if chance.percent(60) { Word::PLUS_ZERO } else { any_word(chance) };
        draft.put(0, word);
        draft
    }

    /// A marked cell.
    pub fn put(&mut self, cell: u64, word: Word) {
        self.values.insert(cell, word.cell());
        self.marks.insert(cell, 1);
        self.taken[cell as usize] = true;
    }

    pub fn put_order(&mut self, cell: u64, order: Order) {
        self.put(cell, order.word());
    }

    /// The start of so many cells in a row that nothing else uses, all still unmarked.
    pub fn free(&mut self, count: u64, chance: &mut Chance) -> u64 {
        for _ in 0..100 {
            let start = match chance.below(12) {
                0 => 1,
                1 => 1_000 - count,
                _ => chance.between(1, 1_000 - count),
            };
            if self.take(start, count) {
                return start;
            }
        }
        let first = (1..=1_000 - count).find(|&start| self.take(start, count));
        first.expect("a session asks for no more cells than there are")
    }

    /// Whether so many cells from a start on were still free, and are now taken.
    pub fn take(&mut self, start: u64, count: u64) -> bool {
        let run = &mut self.taken[start as usize..(start + count) as usize];
        let free = run.iter().all(|taken| !taken);
        if free {
            run.fill(true);
        }
        free
    }

    pub fn free_word(&mut self, word: Word, chance: &mut Chance) -> u64 {
        let cell = self.free(1, chance);
        self.put(cell, word);
        cell
    }

    /// Ends the layout. A few drums are sent in full, and all that take more numbers otherwise.
    pub fn begin(&mut self, state: State, chance: &mut Chance) {
        let within = |map: &BTreeMap<u64, u64>, length: u64| {
            map.range(..length).map(|(&i, &v)| (i, v)).collect()
        };
        let pairs = within(&self.values, self.cells_length);
        let mut cells = Cells::Sparse { length: self.cells_length, fill: self.fill, pairs };
        let pairs = within(&self.marks, self.marks_length);
        let mut marks = Marks::Sparse { length: self.marks_length, pairs };
        let many = self.values.len() + self.marks.len() > FULL;
        if chance.one_in(200) || many {
            (cells, marks) = (Cells::Full(cells.all()), Marks::Full(marks.all()));
        }
        self.send(Message::Begin(Begin { cells, marks, state: state.numbers().to_vec() }));
    }

    fn send(&mut self, message: Message) -> Option<Outcome> {
        let outcome = self.bench.feed(&message, &mut |_| {});
        self.messages.push(message);
        outcome
    }

    pub fn deck(&mut self, deck: impl Into<Vec<u8>>) {
        self.send(Message::Deck(deck.into()));
    }

    pub fn set_state(&mut self, state: State) {
        self.set_numbers(state.numbers().to_vec());
    }

    /// A state of any length.
    pub fn set_numbers(&mut self, numbers: Vec<u64>) {
        self.send(Message::State(numbers));
    }

    pub fn state(&self) -> State {
        State::of_numbers(&self.bench.state).expect("a state that a run has left")
    }

    pub fn load(&mut self, traced: u64) {
        self.send(Message::Load { traced });
    }

    pub fn run(&mut self, room: u64, budget: u64, stop: u64) -> Ended {
        match self.send(Message::Run { room, budget, stop }) {
            Some(Outcome::Run { ended, .. }) => ended,
            _ => unreachable!("a run is answered"),
        }
    }

    /// All messages, the last one ending the session.
    pub fn finish(mut self) -> Vec<Message> {
        self.send(Message::EndOfSession);
        self.messages
    }
}
