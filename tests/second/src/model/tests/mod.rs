//! Worked sessions on the model.

mod carries;
mod compare;
mod entry;
mod loss;
mod making;
mod moves;
mod orders;
mod paper;
mod tracing;

use super::calls::{load, run, Ended, Refusal, Run};
use super::order::Sums;
use super::state::{State, NUMBERS};
use super::word::Word;

/// A drum, its marks, a deck and a state, with room for a few cards.
struct Job {
    cells: Vec<u64>,
    marks: Vec<u8>,
    deck: String,
    state: State,
    /// How many numbers are lent as the state.
    numbers: usize,
    out: Vec<u8>,
    sums: Sums,
}

/// What a job's state is at first.
const START: State =
    State { location: 101, counts: [0; 3], counter: 0, problem: 7, reader: 7, mode: 0, tracing: 0 };

/// What no rule may read.
const STRAY: u64 = u64::MAX;

impl Job {
    /// Nothing but cell 000 is marked; the other cells hold what is no word.
    fn new() -> Job {
        let mut job = Job {
            cells: vec![STRAY; 1_000],
            marks: vec![0; 1_000],
            deck: "T101007".to_string(),
            state: START,
            numbers: NUMBERS,
            out: vec![b'.'; 400],
            sums: Sums::Carry,
        };
        job.put(0, "+0000000000");
        job
    }

    fn traced() -> Job {
        let mut job = Job::new();
        job.state = State { mode: 1, tracing: 1, ..START };
        job
    }

    /// Words from a location on.
    fn with(mut self, location: usize, words: &[&str]) -> Job {
        for (cell, word) in (location..).zip(words) {
            self.put(cell, word);
        }
        self
    }

    fn put(&mut self, cell: usize, word: &str) {
        self.cells[cell] = Word::of_text(word.as_bytes()).cell();
        self.marks[cell] = 1;
    }

    fn with_counts(mut self, counts: [u64; 3]) -> Job {
        self.state.counts = counts;
        self
    }

    fn with_deck(mut self, deck: &str) -> Job {
        self.deck = deck.to_string();
        self
    }

    fn with_room(mut self, room: usize) -> Job {
        self.out.resize(room, b'.');
        self
    }

    /// The state as it is lent, and as a call has left it.
    fn lent(&self) -> Vec<u64> {
        let mut numbers = self.state.numbers().to_vec();
        numbers.resize(self.numbers, 7);
        numbers
    }

    fn took_back(&mut self, numbers: Vec<u64>) {
        match State::of_numbers(&numbers) {
            Ok(state) => self.state = state,
            Err(_) => assert_eq!(numbers, self.lent(), "a state of another length was changed"),
        }
    }

    /// Number and place.
    fn load(&mut self, traced: bool) -> (u64, u64) {
        let (deck, mut state) = (self.deck.as_bytes(), self.lent());
        let done = load(&mut self.cells, &mut self.marks, deck, &mut state, traced, &mut |_| {});
        self.took_back(state);
        done.map_or_else(|Refusal { reason, place }| (reason.number(), place), |()| (0, 0))
    }

    fn run(&mut self, budget: u64) -> Ended {
        self.run_with(budget, false)
    }

    fn run_with(&mut self, budget: u64, switch_on_stop: bool) -> Ended {
        let mut state = self.lent();
        let lent = Run {
            cells: &mut self.cells,
            marks: &mut self.marks,
            deck: self.deck.as_bytes(),
            out: &mut self.out,
            state: &mut state,
            budget,
            switch_on_stop,
            sums: self.sums,
        };
        let ended = run(lent, &mut |_| {});
        self.took_back(state);
        ended
    }

    /// A run's number and count, with all that a refused order must leave alone checked.
    fn refused(&mut self, budget: u64) -> (u64, u64) {
        let ended = self.run(budget);
        assert_eq!((ended.place, ended.shown), (0, Word::PLUS_ZERO));
        (ended.reason.number(), ended.count)
    }

    fn word(&self, cell: usize) -> String {
        assert_eq!(self.marks[cell], 1, "cell {cell} is unmarked");
        Word::of_cell(self.cells[cell]).expect("a marked cell holds a word").text()
    }

    fn location(&self) -> u64 {
        self.state.location
    }

    /// The location and the loop box.
    fn at(&self) -> (u64, [u64; 3]) {
        (self.state.location, self.state.counts)
    }

    fn written(&self, ended: Ended) -> &str {
        let (cards, rest) = self.out.split_at(ended.written as usize);
        assert!(rest.iter().all(|&byte| byte == b'.'), "the output behind the cards was touched");
        std::str::from_utf8(cards).expect("cards are ASCII")
    }
}
