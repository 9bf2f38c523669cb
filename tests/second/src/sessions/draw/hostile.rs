//! Sessions aimed at what a call as a whole comes to: 10, the numbers of a deck, 12 at load and at run,
//! one line at a time or several at once, and that nothing is changed by them.

use super::draft::Draft;
use super::parts::built;
use super::wrong::{above, above_one, astray, no_word, wrong_length};
use crate::chance::Chance;
use crate::decks::build::{any_word, Cards};
use crate::decks::with_fault;
use crate::model::deck::check;
use crate::model::drum::CELLS;
use crate::model::event::{Before, Event};
use crate::model::order::Code;
use crate::model::state::{State, NUMBERS};
use crate::model::stop::{Entry, Reason, FIELDS};
use crate::model::word::Word;
use crate::sessions::message::Message;
use crate::sessions::reach::{lines_of_10, lines_of_12, FAULTS, LENGTHS};

/// What the calls of a session are given.
#[derive(Clone)]
struct Given {
    deck: Vec<u8>,
    state: State,
    /// How many numbers are lent as the state.
    numbers: usize,
    budget: u64,
}

impl Given {
    /// The state's numbers, and from the first one again where more are lent than it has.
    fn lent(&self) -> Vec<u64> {
        self.state.numbers().into_iter().cycle().take(self.numbers).collect()
    }
}

pub fn session(event: Event, chance: &mut Chance) -> Vec<Message> {
    let mut draft = Draft::new(chance);
    let good = furnish(&mut draft, chance);
    let mut bad = good.clone();
    match event {
        Event::LoadRefused(reason) => break_line(reason, &mut draft, &mut bad, chance),
        Event::RunRefused { reason, idle } => {
            if idle {
                bad.budget = 0;
            }
            break_line(reason, &mut draft, &mut bad, chance);
        }
        Event::RunRefusedForSeveral => break_several(&mut draft, &mut bad, chance),
        Event::DeckUntold { number, .. } => {
            break_deck(number, &mut draft, &mut bad, chance);
            break_line(chance.pick(&lines_of_10()), &mut draft, &mut bad, chance);
        }
        Event::StateUntold { number, run } => {
            break_deck(number, &mut draft, &mut bad, chance);
            break_line(line_behind_deck(run, chance), &mut draft, &mut bad, chance);
        }
        Event::Loaded { cell_000, .. } => set_cell_000(cell_000, &mut draft, chance),
        Event::BudgetUsed { zero: true } => bad.budget = 0,
        _ => {}
    }
    if chance.one_in(4) {
        break_more(event, &mut draft, &mut bad, chance);
    }
    draft.begin(good.state, chance);
    draft.deck(good.deck.clone());
    if chance.percent(50) {
        draft.run(200, chance.below(3), 0);
    }
    call(event, &bad, &mut draft, chance);
    // With good things again, nothing tells that the call was refused.
    draft.deck(good.deck.clone());
    draft.set_state(good.state);
    draft.run(200, good.budget, 0);
    if chance.percent(30) {
        draft.load(chance.below(2));
        draft.run(200, 3, 0);
    }
    draft.finish()
}

fn call(event: Event, bad: &Given, draft: &mut Draft, chance: &mut Chance) {
    draft.deck(bad.deck.clone());
    draft.set_numbers(bad.lent());
    match event {
        Event::LoadRefused(_)
        | Event::DeckUntold { run: false, .. }
        | Event::StateUntold { run: false, .. } => draft.load(chance.below(2)),
        Event::Loaded { traced, .. } => draft.load(traced as u64),
        _ => {
            draft.run(chance.pick(&[0, 77, 200]), bad.budget, chance.below(2));
        }
    }
}

/// A short program, a deck that loads it too, and a state that runs it.
fn furnish(draft: &mut Draft, chance: &mut Chance) -> Given {
    let orders = [
        built(Code::Noop, 0, 0, 0),
        built(Code::Move000, 0, 0, chance.between(1, 999)),
        built(Code::TrExp, 0, 0, chance.between(1, 999)),
    ];
    let start = draft.free(3, chance);
    for (cell, order) in (start..).zip(orders) {
        draft.put_order(cell, order);
    }
    let deck = Cards::any(chance).bytes();
    let checked = check(&deck).expect("a good deck");
    let starts = checked.after.iter().map(|(start, _)| *start as u64);
    let readers: Vec<u64> = starts.chain([deck.len() as u64]).collect();
    let mode = chance.below(2);
    let state = State {
        location: chance.pick(&[start, start, start, 0, 1_000]),
        counts: [0; 3].map(|_| chance.pick(&[0, 999])),
        counter: chance.pick(&[0, 9_999]),
        problem: chance.pick(&[0, 999]),
        reader: chance.pick(&readers),
        mode,
        tracing: mode * chance.below(2),
    };
    Given { deck, state, numbers: NUMBERS, budget: chance.pick(&[1, 2, 3, 3]) }
}

fn set_cell_000(wanted: Before, draft: &mut Draft, chance: &mut Chance) {
    match wanted {
        Before::Unmarked => {
            draft.marks.remove(&0);
            draft.values.insert(0, chance.pick_or(&[0, 1_000_000_050], 0, u64::MAX - 1));
        }
        Before::PlusZero => draft.put(0, Word::PLUS_ZERO),
        Before::OtherWord => {
            let Word { minus, digits } = any_word(chance);
            draft.put(0, Word { minus: minus || digits == 0, digits });
        }
    }
}

/// Further faults, of later lines, which must not be told.
fn break_more(event: Event, draft: &mut Draft, bad: &mut Given, chance: &mut Chance) {
    let (Event::LoadRefused(reason) | Event::RunRefused { reason, .. }) = event else { return };
    if reason.entry() < Some(Entry::Deck) {
        let fault = chance.pick(&FAULTS[1..]);
        break_line(Reason::Deck(fault), draft, bad, chance);
    }
    if reason.entry() < Some(Entry::State) {
        let mut lines = lines_of_12();
        lines.retain(|&line| line != Reason::BudgetAbove999999 || bad.budget > 0);
        // A reader astray has a deck of its own, and no fault of deck or drum may be mended.
        lines.retain(|&line| !matches!(line, Reason::ReaderAstray(_) | Reason::Cell000Unmarked));
        break_line(chance.pick(&lines), draft, bad, chance);
        bad.state.reader = chance.pick(&[bad.state.reader, 1, u64::MAX]);
        bad.numbers = chance.pick(&[NUMBERS, NUMBERS, NUMBERS + 1]);
    }
}

/// A deck that is refused with this number.
fn break_deck(number: u64, draft: &mut Draft, bad: &mut Given, chance: &mut Chance) {
    let mut lines = FAULTS.map(Reason::Deck).to_vec();
    lines.retain(|line| line.number() == number);
    break_line(chance.pick(&lines), draft, bad, chance);
}

/// A line of 12 that is judged behind the deck, whatever deck it is.
fn line_behind_deck(run: bool, chance: &mut Chance) -> Reason {
    let mut lines = LENGTHS.map(Reason::StateLength).to_vec();
    if run {
        lines.extend(lines_of_12());
        lines.retain(|line| !matches!(line, Reason::ReaderAstray(_)));
    }
    chance.pick(&lines)
}

/// One line of 12 that no other can mend, and then some others.
fn break_several(draft: &mut Draft, bad: &mut Given, chance: &mut Chance) {
    let first = match chance.below(6) {
        0 => Reason::BudgetAbove999999,
        1 => Reason::LocationAbove1000,
        2 => Reason::CounterAbove9999,
        3 => Reason::ProblemAbove999,
        4 => Reason::Cell000Unmarked,
        _ => Reason::BoxAbove999(chance.pick(&FIELDS)),
    };
    break_line(first, draft, bad, chance);
    let mut others = lines_of_12();
    others.retain(|&line| line != first);
    for _ in 0..chance.between(1, 3) {
        break_line(chance.pick(&others), draft, bad, chance);
    }
}

/// Any cell of the drum, its first and last more often than others.
fn any_cell(chance: &mut Chance) -> u64 {
    match chance.below(4) {
        0 => 0,
        1 => 999,
        _ => chance.below(1_000),
    }
}

fn break_line(reason: Reason, draft: &mut Draft, bad: &mut Given, chance: &mut Chance) {
    let state = &mut bad.state;
    match reason {
        Reason::DrumLength(length) => {
            draft.cells_length = wrong_length(length, CELLS as u64, chance);
            if chance.one_in(3) {
                draft.marks_length = draft.cells_length;
            }
        }
        Reason::MarksLength(length) => {
            draft.marks_length = wrong_length(length, CELLS as u64, chance)
        }
        Reason::MarkAboveOne(mark) => {
            let cell = any_cell(chance);
            draft.marks.insert(cell, above_one(mark, chance));
            draft.values.entry(cell).or_insert(chance.next());
        }
        Reason::MarkedCellNoWord(by) => {
            let cell = any_cell(chance);
            draft.put(cell, any_word(chance));
            draft.values.insert(cell, no_word(by, chance));
        }
        Reason::Deck(fault) => bad.deck = with_fault(fault, chance),
        Reason::StateLength(length) => {
            bad.numbers = wrong_length(length, NUMBERS as u64, chance) as usize
        }
        Reason::BudgetAbove999999 => bad.budget = above(999_999, chance),
        Reason::LocationAbove1000 => state.location = above(1_000, chance),
        Reason::BoxAbove999(field) => state.counts[field as usize] = above(999, chance),
        Reason::CounterAbove9999 => state.counter = above(9_999, chance),
        Reason::ProblemAbove999 => state.problem = above(999, chance),
        Reason::ReaderAstray(place) => (bad.deck, state.reader) = astray(place, chance),
        Reason::ModeAbove1 => state.mode = above(1, chance),
        Reason::TracingAbove1 => state.tracing = above(1, chance),
        Reason::TracingInPlainMode => (state.mode, state.tracing) = (0, 1),
        Reason::Cell000Unmarked => {
            draft.marks.remove(&0);
        }
        other => panic!("{other:?} is no line of a call's entry"),
    }
}

#[cfg(test)]
mod tests {
    use super::*;
    use crate::sessions::bench::Bench;
    use crate::sessions::reach::of_calls;

    #[test]
    fn every_aim_is_reached() {
        for seed in 0..20 {
            let always = Event::BudgetUsed { zero: false };
            for event in of_calls().into_iter().filter(|event| *event != always) {
                let mut seen = false;
                let mut bench = Bench::default();
                for message in session(event, &mut Chance::new(seed)) {
                    bench.feed(&message, &mut |found| seen |= found == event);
                }
                assert!(seen, "{event:?} with {seed}");
            }
        }
    }
}
