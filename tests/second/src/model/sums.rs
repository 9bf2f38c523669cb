//! What is told besides of ADD and SUB of an address, for counting what was covered.

use super::besides::{is_no_number, that_hold, Scene, MINUS_ZERO};
use super::card::LAST_CELL;
use super::event::{Event, Sum};
use super::order::{Change, Order};
use super::orders::address::carried;
use super::stop::Field;
use super::word::{Word, MINUS};

/// Whether an address of a word and the constant come to 000 to 999, whatever the other digits are.
pub fn stays_within(word: Word, field: Field, constant: i64) -> bool {
    let address = Order::of_word(word).address(field);
    (0..=999).contains(&(address as i64 + constant))
}

/// Of ADD or SUB that 20 for B 000 does not speak against; the word that it leaves, if it is done.
pub fn of_sum(change: Change, field: Field, scene: &Scene, after: Option<Word>) -> Vec<Event> {
    let Scene { order, drum, .. } = *scene;
    let constant = change.constant(order.c);
    let Some(word) = drum.word(order.b) else {
        let past = |word| carried(word, field, constant).is_err();
        let untold = drum.lying(order.b).is_some_and(past);
        return that_hold(vec![(untold, Event::SumUntold { change, field })]);
    };
    let within = stays_within(word, field, constant);
    let (done, mut sums) = (after.is_some(), of_either(field, scene, word, within));
    match after {
        Some(after) => sums.extend(of_done(field, scene, word, after)),
        None => sums.push(Sum::Refused { minus: word.minus }),
    }
    let summed = sums.into_iter().map(|sum| Event::Summed { change, field, done, sum });
    summed.chain([Event::SumWithin(within)]).collect()
}

fn of_either(field: Field, scene: &Scene, word: Word, within: bool) -> Vec<Sum> {
    let Scene { stored, order, state, .. } = *scene;
    that_hold(vec![
        (order.c == 999, Sum::C999),
        (order.b == state.location, Sum::OwnCell { within }),
        (word == MINUS_ZERO && order.c > 0, Sum::MinusZero),
        (state.location == LAST_CELL, Sum::At999),
        (order.b == LAST_CELL, Sum::Cell999),
        (order.b != stored.b, Sum::BoxB),
        (order.c != stored.c, Sum::BoxC),
        (word.minus && state.counts[field as usize] > 0, Sum::LiveBox),
    ])
}

fn of_done(field: Field, scene: &Scene, word: Word, after: Word) -> Vec<Sum> {
    let Scene { order, state, .. } = *scene;
    let (old, new) = (Order::of_word(word), Order::of_word(after));
    let before = [(old.o1, new.o1), (old.a, new.a), (old.b, new.b)];
    let parts = before[..=field as usize].iter().filter(|(old, new)| old != new).count() as u64;
    let minus = word.minus;
    let at_end = [0, MINUS - 1].contains(&after.digits);
    that_hold(vec![
        (true, Sum::Carried { parts, minus }),
        (at_end && order.c > 0, Sum::AtEnd { minus }),
        (order.c == 0, Sum::C000),
        (order.b == state.location + 1 && old.o1 != new.o1, Sum::NextCode),
        (word.number().is_some(), Sum::Number),
        (is_no_number(word), Sum::NoNumber),
    ])
}
