//! The machine state, and what a run asks of it.

use super::deck::Deck;
use super::drum::Drum;
use super::stop::{Length, Reason, FIELDS};

/// The names of a state's numbers, in the order in which they are handed over.
pub const NAMES: [&str; NUMBERS] = [
    "location",
    "box A",
    "box B",
    "box C",
    "card counter",
    "problem number",
    "reader",
    "mode",
    "tracing",
];
pub const NUMBERS: usize = 9;

/// The state as it is handed over, so each number may still be anything.
#[derive(Clone, Copy, Debug, Default, PartialEq, Eq)]
pub struct State {
    pub location: u64,
    /// The loop box: the counts A, B, C.
    pub counts: [u64; 3],
    pub counter: u64,
    pub problem: u64,
    pub reader: u64,
    /// 0 plain, 1 traced.
    pub mode: u64,
    /// 0 off, 1 on.
    pub tracing: u64,
}

impl State {
    /// Every other length is refused.
    pub fn of_numbers(numbers: &[u64]) -> Result<State, Reason> {
        if let Some(length) = Length::wrong(numbers.len(), NUMBERS) {
            return Err(Reason::StateLength(length));
        }
        let &[location, a, b, c, counter, problem, reader, mode, tracing] = numbers else {
            unreachable!("a state of {NUMBERS} numbers");
        };
        Ok(State { location, counts: [a, b, c], counter, problem, reader, mode, tracing })
    }

    pub fn numbers(&self) -> [u64; NUMBERS] {
        let [a, b, c] = self.counts;
        [self.location, a, b, c, self.counter, self.problem, self.reader, self.mode, self.tracing]
    }

    pub fn traced_mode(&self) -> bool {
        self.mode == 1
    }

    pub fn tracing_is_on(&self) -> bool {
        self.tracing == 1
    }

    /// The state that a load leaves: box and counter clear, the rest from T and from the caller.
    pub fn loaded(deck: &Deck, traced: bool) -> State {
        State {
            location: deck.first_order,
            counts: [0; 3],
            counter: 0,
            problem: deck.problem,
            reader: deck.behind_t as u64,
            mode: traced as u64,
            tracing: traced as u64,
        }
    }

    /// Every line of 12 that holds when a run begins.
    pub fn faults(&self, budget: u64, drum: &Drum, deck: &Deck) -> Vec<Reason> {
        let mut lines = vec![
            (budget > 999_999, Reason::BudgetAbove999999),
            (self.location > 1_000, Reason::LocationAbove1000),
            (self.counter > 9_999, Reason::CounterAbove9999),
            (self.problem > 999, Reason::ProblemAbove999),
            (self.mode > 1, Reason::ModeAbove1),
            (self.tracing > 1, Reason::TracingAbove1),
            (self.mode == 0 && self.tracing == 1, Reason::TracingInPlainMode),
            (drum.word(0).is_none(), Reason::Cell000Unmarked),
        ];
        if let Some(astray) = deck.astray(self.reader) {
            lines.push((true, Reason::ReaderAstray(astray)));
        }
        for (field, count) in FIELDS.into_iter().zip(self.counts) {
            lines.push((count > 999, Reason::BoxAbove999(field)));
        }
        lines.into_iter().filter(|(holds, _)| *holds).map(|(_, reason)| reason).collect()
    }
}
