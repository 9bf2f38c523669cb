//! Programs of orders drawn by chance, most of them sensible where they stand.

use super::draft::Draft;
use super::layout::{Layout, INBOX, NUMBERS};
use super::parts::{any_address, built};
use super::steer::steer;
use crate::chance::Chance;
use crate::model::order::{Change, Code, Order, BUILT};
use crate::model::state::State;
use crate::model::stop::Field;
use crate::model::word::Word;
use crate::sessions::message::Message;

pub fn session(chance: &mut Chance) -> Vec<Message> {
    let mut draft = Draft::new(chance);
    let length = chance.between(4, 30);
    let layout = Layout::new(length, &mut draft, chance);
    for (cell, word) in layout.words(chance) {
        draft.put(cell, word);
    }
    let most = chance.pick(&[0, 0, 1, 3]);
    let counts = [0; 3].map(|_| chance.below(most + 1));
    for cell in layout.program..layout.program + length {
        let order = order(&layout, counts, &draft, chance);
        draft.put(cell, order);
    }
    if chance.percent(80) {
        let last = layout.program + length - 1;
        draft.put_order(last, built(Code::Tr, 0, 0, layout.order(chance)));
    }
    let mode = chance.below(2);
    let tracing = mode * chance.below(2);
    let (deck, reader) = layout.small_deck(chance);
    let counter = chance.pick(&[0, 9_990, 9_999]);
    let (location, problem) = (layout.program, chance.below(1_000));
    draft.begin(State { location, counts, counter, problem, reader, mode, tracing }, chance);
    draft.deck(deck);
    let runs = chance.between(3, 9);
    steer(&mut draft, runs, layout.program..layout.program + length, chance);
    draft.finish()
}

/// An order as stored: now and then a minus order, often one that the box makes into a good one.
fn order(layout: &Layout, counts: [u64; 3], draft: &Draft, chance: &mut Chance) -> Word {
    if chance.one_in(60) {
        return Word { minus: chance.percent(50), digits: chance.below(10_000_000_000) };
    }
    let done = done(layout, draft, chance);
    if chance.percent(75) {
        return done.word();
    }
    let [a, b, c] = counts;
    let less = |address: u64, count: u64| address.saturating_sub(count);
    Order { minus: true, o1: done.o1, a: less(done.a, a), b: less(done.b, b), c: less(done.c, c) }
        .word()
}

fn done(layout: &Layout, draft: &Draft, chance: &mut Chance) -> Order {
    let code = drawn_code(chance);
    let (b, c) = match code {
        Code::Move => return block_move(layout, chance),
        Code::TrAddress(field) => return address_test(field, layout, draft, chance),
        Code::OfTwo(_) | Code::OfOne(_) => (layout.operand(chance), layout.result(chance)),
        Code::Move000 => {
            let from =
                if chance.percent(40) { layout.stranger(chance) } else { layout.operand(chance) };
            (from, layout.result(chance))
        }
        Code::CondStop | Code::UncStop => (layout.result(chance), layout.target(chance)),
        Code::TrSgn => (layout.target(chance), layout.target(chance)),
        Code::TrExp => (chance.between(40, 60), layout.target(chance)),
        Code::Tr => (any_address(chance), layout.target(chance)),
        Code::TrSubr => (layout.target(chance), layout.target(chance)),
        Code::Loop(_) => (chance.below(6), layout.target(chance)),
        Code::Change(change, _) => {
            let at = if chance.percent(60) { layout.order(chance) } else { layout.result(chance) };
            let constant = match change {
                Change::Set => layout.number(chance),
                _ => chance.pick(&[0, 1, 2, 999, 998]),
            };
            (at, constant)
        }
        Code::Pch => {
            let from = layout.number(chance);
            (from, chance.between(from.saturating_sub(1), layout.numbers + NUMBERS - 1))
        }
        Code::Read => (layout.inbox, layout.inbox + INBOX - 1 - chance.below(2) * chance.below(3)),
        _ => (any_address(chance), any_address(chance)),
    };
    built(code, layout.operand(chance), b, c)
}

/// A few words, most often numbers, and most often to where numbers or no words are.
fn block_move(layout: &Layout, chance: &mut Chance) -> Order {
    let b = match chance.below(8) {
        0 => layout.order(chance),
        1 => layout.stranger(chance),
        2 => layout.operand(chance),
        _ => layout.number(chance),
    };
    let c = if chance.percent(50) { layout.number(chance) } else { layout.result(chance) };
    let numbers = (layout.numbers + NUMBERS).saturating_sub(b);
    let words = if chance.one_in(8) { 7 } else { numbers.clamp(1, 7) };
    built(Code::Move, chance.between(1, words), b, c)
}

/// The constant is often the address of the word that lies there before the program runs.
fn address_test(field: Field, layout: &Layout, draft: &Draft, chance: &mut Chance) -> Order {
    let a = if chance.percent(60) { layout.order(chance) } else { layout.operand(chance) };
    let there = draft.values.get(&a).and_then(|&number| Word::of_cell(number));
    let b = match there {
        Some(word) if chance.percent(60) => Order::of_word(word).address(field),
        _ => any_address(chance),
    };
    built(Code::TrAddress(field), a, b, layout.target(chance))
}

/// Mathematical orders as often as all others together.
fn drawn_code(chance: &mut Chance) -> Code {
    loop {
        let code = chance.pick(&BUILT).code;
        match code {
            Code::OfTwo(_) | Code::OfOne(_) | Code::Move000 => return code,
            Code::UncStop if !chance.one_in(4) => {}
            Code::Change(..) | Code::Loop(_) if chance.percent(60) => {}
            _ if chance.percent(60) => return code,
            _ => {}
        }
    }
}
