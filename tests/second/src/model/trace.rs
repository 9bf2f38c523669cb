//! The trace card, which comes before the order that it tells of.

use super::card::DataCard;
use super::drum::Drum;
use super::order::Order;
use super::state::State;
use super::word::Word;

/// The card counter's next value; after 9999 comes 0.
pub fn next_counter(counter: u64) -> u64 {
    (counter + 1) % 10_000
}

/// The card for the order at the state's location, as stored and as done. The counter in `state`
/// has been raised already.
pub fn trace_card(stored: Word, done: Order, state: &State, drum: &Drum) -> String {
    let [a, b, c] = state.counts;
    let counts = Order { minus: false, o1: 0, a, b, c };
    let a_word = if done.o1 != 0 && done.a != 0 { drum.shown(done.a) } else { Word::PLUS_ZERO };
    let words = vec![stored, done.word(), counts.word(), a_word, drum.shown(done.b), drum.shown(0)];
    let card =
        DataCard { number: state.counter, location: state.location, words, problem: state.problem };
    card.trace_text()
}
