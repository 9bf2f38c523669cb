//! The sessions that begin every stream: the paper's own, its blunders, the largest of all, what the
//! newsletter shows of block moves and address tests, and address sums that carry.

use super::draft::Draft;
use crate::chance::Chance;
use crate::decks::build::longest;
use crate::decks::with_fault;
use crate::model::deck::Fault;
use crate::model::state::{State, NUMBERS};
use crate::model::word::Word;
use crate::sessions::message::Message;

const PAPER: &str = "30001101+1200201202+0410202202+0000202000007\
                     20002200+1000000050+2000000050007\
                     T101007";

/// The session of this index, or none behind the last.
pub fn session(index: u64, chance: &mut Chance) -> Option<Vec<Message>> {
    let mut draft = Draft::new(chance);
    match index {
        0 => paper(0, &mut draft, chance),
        1 => paper(1, &mut draft, chance),
        2 => the_largest_budget(&mut draft, chance),
        3 => the_longest_deck(&mut draft, chance),
        4 => all_cells_punched(&mut draft, chance),
        5 => over_long_decks(&mut draft, chance),
        6 => read_finds_its_second_card_wrong(&mut draft, chance),
        7 => bad_punch_in_traced_mode(&mut draft, chance),
        8 => sellers_table(&mut draft, chance),
        9 => empty_run(&mut draft, chance),
        10 => newsletters_move_and_test(&mut draft, chance),
        11 => newsletters_summation(&mut draft, chance),
        12 => address_sums(&mut draft, chance),
        _ => return None,
    }
    Some(draft.finish())
}

fn put(draft: &mut Draft, location: u64, words: &[&str]) {
    for (cell, word) in (location..).zip(words) {
        draft.put(cell, Word::of_text(word.as_bytes()));
    }
}

fn paper(traced: u64, draft: &mut Draft, chance: &mut Chance) {
    draft.begin(State::default(), chance);
    draft.deck(PAPER);
    draft.load(traced);
    for budget in [0, 1, 1, 999_999, 999_999] {
        draft.run(300, budget, 1);
    }
}

/// A transfer to itself for 999,999 orders, and a loop that counts to 999 over and over.
fn the_largest_budget(draft: &mut Draft, chance: &mut Chance) {
    put(draft, 101, &["+0203000101"]);
    put(draft, 200, &["-0454000000", "+0111999200", "+0203000200"]);
    draft.begin(State { location: 101, reader: 7, ..State::default() }, chance);
    draft.deck("T101000");
    draft.run(0, 999_999, 0);
    draft.set_state(State { location: 200, reader: 7, ..State::default() });
    draft.run(0, 50_000, 0);
    draft.set_state(State { location: 101, reader: 7, mode: 1, tracing: 1, ..State::default() });
    draft.run(40_000, 999_999, 0);
}

/// READ takes the last cards of a deck that is nearly as long as can be.
fn the_longest_deck(draft: &mut Draft, chance: &mut Chance) {
    put(draft, 500, &["+0400001010", "+0000005000"]);
    draft.begin(strange(u64::MAX), chance);
    let cards = "50000001+0000000001-0000000002+0000000003+0000000004+9999999999000".repeat(991);
    let last = "50000006+0000000005+0000000006-0000000007+0000000008+0000000009000";
    draft.deck(format!("T500000{cards}{last}"));
    draft.load(0);
    let loaded = draft.state();
    draft.set_state(State { reader: loaded.reader + 66 * 990, ..loaded });
    draft.run(0, 5, 0);
    draft.deck(longest(chance).bytes());
    draft.load(0);
    draft.run(1_000, 100, 0);
}

/// A state whose numbers are all the same.
fn strange(number: u64) -> State {
    State::of_numbers(&[number; NUMBERS]).expect("a state")
}

fn all_cells_punched(draft: &mut Draft, chance: &mut Chance) {
    for cell in 1..1_000 {
        draft.put(cell, Word { minus: cell % 3 == 0, digits: cell * 7_777_777 });
    }
    put(draft, 500, &["+0410001999", "+0410001998", "-0410001999"]);
    draft.begin(
        State { location: 500, counter: 9_900, problem: 999, reader: 7, ..State::default() },
        chance,
    );
    draft.deck("T500000");
    draft.run(200 * 11 + 999 * 11 - 1, 1, 0);
    draft.run(200 * 11 + 999 * 11, 1, 0);
    draft.run(30_000, 2, 0);
}

fn over_long_decks(draft: &mut Draft, chance: &mut Chance) {
    put(draft, 1, &["+0454000000"]);
    draft.begin(State { location: 1, reader: 7, ..State::default() }, chance);
    draft.deck(with_fault(Fault::TooLong, chance));
    draft.load(0);
    draft.run(100, 1, 0);
    draft.deck("T001000");
    draft.run(100, 1, 0);
}

fn read_finds_its_second_card_wrong(draft: &mut Draft, chance: &mut Chance) {
    put(draft, 101, &["+0400300302"]);
    draft.begin(State { location: 101, reader: 7, ..State::default() }, chance);
    draft.deck("T10100720000300+0000000001+000000000200010000303+0000000003000");
    draft.run(0, 1, 0);
    draft.deck("T10100720000300+0000000001+0000000002000");
    draft.run(0, 1, 0);
    draft.deck("T10100720000300+0000000001+000000000200010000302-0000000003000");
    draft.run(0, 1, 0);
}

fn bad_punch_in_traced_mode(draft: &mut Draft, chance: &mut Chance) {
    put(draft, 101, &["+0410005004", "+0451000000", "+0410000000", "+0410900901"]);
    draft.begin(
        State {
            location: 101,
            counter: 9_999,
            problem: 7,
            reader: 7,
            mode: 1,
            tracing: 1,
            ..State::default()
        },
        chance,
    );
    draft.deck("T101007");
    draft.run(200, 4, 0);
    draft.set_state(State { location: 101, problem: 7, reader: 7, ..State::default() });
    draft.run(200, 4, 0);
}

/// Marks and words from before a load stay.
fn sellers_table(draft: &mut Draft, chance: &mut Chance) {
    put(draft, 700, &["+7000000050", "-0000000000"]);
    put(draft, 101, &["-9999999999"]);
    draft.begin(strange(5_000), chance);
    draft.deck(format!("{PAPER}?"));
    draft.load(1);
    draft.deck(PAPER.replace("+1200201202", "+1200700202"));
    draft.load(0);
    draft.run(100, 10, 0);
}

/// Locations that no order has, and no order in the cell.
fn empty_run(draft: &mut Draft, chance: &mut Chance) {
    draft.begin(State { reader: 7, ..State::default() }, chance);
    draft.deck("T101007");
    for location in [0, 1, 999, 1_000, 1_001] {
        draft.set_state(State { location, reader: 7, ..State::default() });
        draft.run(0, 0, 0);
        draft.run(0, 1, 0);
    }
}

/// Five words two cells up, then down again; and an address that is another, and then the one asked for.
fn newsletters_move_and_test(draft: &mut Draft, chance: &mut Chance) {
    put(draft, 701, &["+1000000050", "-2000000050", "-0000000000", "+0000000004", "+5000000050"]);
    put(draft, 101, &["+9005701703", "+9005703701", "+9005701996", "+9005996701"]);
    put(draft, 300, &["+6750325200", "+0000301000"]);
    put(draft, 200, &["+0600750005", "+0203000300"]);
    put(draft, 750, &["+1320400000"]);
    draft.begin(State { location: 101, reader: 7, ..State::default() }, chance);
    draft.deck("T101000");
    draft.run(0, 3, 0);
    for location in [104, 300] {
        for tracing in [1, 0] {
            let (mode, reader) = (tracing, 7);
            draft.set_state(State { location, reader, mode, tracing, ..State::default() });
            draft.run(400, 9, 0);
        }
    }
}

/// The sum of twenty products, with the addresses of an order changed and compared.
fn newsletters_summation(draft: &mut Draft, chance: &mut Chance) {
    put(draft, 101, &["+0500103801", "+0050103901", "+3000000000", "+1000700700"]);
    put(draft, 105, &["+0600103001", "+0060103001", "+6103821103", "+0000700000"]);
    put(draft, 700, &["+0000000000"]);
    for cell in 1..=20 {
        draft.put(800 + cell, Word::plus(1_000_000_050 + cell * 1_000_000));
        draft.put(900 + cell, Word { minus: cell % 3 == 0, digits: 7_000_000_050 + cell * 77_700 });
    }
    draft.begin(State { location: 101, reader: 7, ..State::default() }, chance);
    draft.deck("T101000");
    draft.run(0, 999, 0);
    draft.set_state(State { location: 101, reader: 7, mode: 1, tracing: 1, ..State::default() });
    draft.run(8_000, 999, 0);
}

/// From 999 to 1000 and back in each address, into O1 and out of it, up to the ends of the ten digits
/// and past them. What is refused is left out.
fn address_sums(draft: &mut Draft, chance: &mut Chance) {
    put(draft, 101, &["+0006300001", "+0007300001", "+0060301001", "+0070301001", "+0600302001"]);
    put(draft, 106, &["+0700302001", "+0006303001", "+0006303001", "+0007304001", "+0007304001"]);
    put(draft, 300, &["+1234567999", "-1234999890", "-1999567890", "-9999999998", "-0000000001"]);
    draft.begin(State::default(), chance);
    draft.deck("T101000");
    for tracing in [0, 1] {
        for location in 101..=110 {
            let state = State { location, reader: 7, mode: tracing, tracing, ..State::default() };
            draft.set_state(state);
            draft.run(100, 1, 0);
        }
    }
}
