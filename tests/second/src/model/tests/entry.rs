//! 10, the numbers of a deck, 12, load, and what a run asks of its state.

use super::{Job, START};
use crate::model::state::{State, NUMBERS};

const DECK: &str = "10000500+0000000001000T10100710000001+0000000000000";

fn number_of_run(change: impl FnOnce(&mut Job)) -> u64 {
    let mut job = Job::new().with_deck(DECK).with(101, &["+0454000000"]);
    job.state.reader = 29;
    change(&mut job);
    let before = (job.cells.clone(), job.marks.clone(), job.state);
    let ended = job.run(1);
    if ended.reason.number() >= 10 {
        assert_eq!((ended.count, ended.shown.cell(), ended.written), (0, 0, 0));
        assert_eq!(before, (job.cells.clone(), job.marks.clone(), job.state));
    }
    ended.reason.number()
}

#[test]
fn lines_of_10() {
    assert_eq!(number_of_run(|job| job.cells.push(0)), 10);
    assert_eq!(number_of_run(|job| job.marks.truncate(999)), 10);
    assert_eq!(number_of_run(|job| job.marks[999] = 2), 10);
    assert_eq!(number_of_run(|job| job.cells[101] = 20_000_000_000), 10);
    assert_eq!(number_of_run(|job| job.cells[102] = 20_000_000_000), 2);
    assert_eq!(number_of_run(|job| job.cells[101] = 19_999_999_999), 20);
}

#[test]
fn lines_of_12() {
    let number = |broken: fn(&mut State)| number_of_run(|job| broken(&mut job.state));
    assert_eq!(number(|state| state.location = 1_001), 12);
    assert_eq!(number(|state| state.counts[0] = 1_000), 12);
    assert_eq!(number(|state| state.counts[1] = 1_000), 12);
    assert_eq!(number(|state| state.counts[2] = 1_000), 12);
    assert_eq!(number(|state| state.counter = 10_000), 12);
    assert_eq!(number(|state| state.problem = 1_000), 12);
    assert_eq!(number(|state| state.mode = 2), 12);
    assert_eq!(number(|state| state.tracing = 2), 12);
    assert_eq!(number(|state| state.tracing = 1), 12);
    assert_eq!(number_of_run(|job| job.marks[0] = 0), 12);
    for numbers in [0, 8, 10, 18] {
        assert_eq!(number_of_run(|job| job.numbers = numbers), 12);
    }
    for (reader, number) in
        [(0, 12), (22, 12), (28, 12), (29, 2), (30, 12), (51, 2), (52, 12), (u64::MAX, 12)]
    {
        assert_eq!(number_of_run(|job| job.state.reader = reader), number, "reader {reader}");
    }
}

#[test]
fn budget_and_location() {
    let mut job = Job::new();
    assert_eq!(job.run(1_000_000).reason.number(), 12);
    assert_eq!(job.refused(0), (2, 0));
    job.state.location = 1_000;
    assert_eq!(job.refused(0), (2, 0));
    assert_eq!(job.refused(1), (20, 0));
    job.state.location = 1_001;
    assert_eq!(job.run(0).reason.number(), 12);
    job.state.location = 0;
    assert_eq!(job.refused(1), (20, 0));
    job.state.location = 999;
    assert_eq!(job.refused(1), (21, 0));
}

/// A deck for each number, with its place.
fn bad_decks() -> [(String, u64, u64); 7] {
    [
        ("?".repeat(65_537), 11, 65_536),
        ("T101007?".to_string(), 13, 7),
        ("T101007100".to_string(), 14, 7),
        ("T101007100O1001+0000000000000".to_string(), 15, 10),
        ("T10100710001000+0000000000000".to_string(), 16, 12),
        ("T101007T101007".to_string(), 17, 7),
        ("10001001+0000000000000".to_string(), 18, 22),
    ]
}

#[test]
fn ten_comes_before_the_deck_before_twelve() {
    for (deck, number, place) in bad_decks() {
        let mut job = Job::new().with_deck(&deck);
        job.state.location = 5_000;
        assert_eq!((job.run(1).reason.number(), job.run(1).place), (number, place));
        assert_eq!(job.load(false), (number, place));
        job.numbers = 8;
        assert_eq!((job.run(0).reason.number(), job.run(0).place), (number, place));
        assert_eq!(job.load(true), (number, place));
        job.marks[3] = 9;
        assert_eq!((job.run(1).reason.number(), job.run(1).place), (10, 0));
        assert_eq!(job.load(false), (10, 0));
    }
}

#[test]
fn load_judges_no_state_and_gives_it_back_when_it_refuses() {
    let mut job = Job::new();
    let strange = State::of_numbers(&[u64::MAX; NUMBERS]).expect("a state");
    job.state = strange;
    let before = (job.cells.clone(), job.marks.clone(), job.state);
    for (deck, number, place) in bad_decks() {
        job.deck = deck;
        assert_eq!(job.load(true), (number, place));
        assert_eq!(before, (job.cells.clone(), job.marks.clone(), job.state));
    }
    job.deck = DECK.to_string();
    job.cells[0] = 20_000_000_000;
    assert_eq!(job.load(true), (10, 0));
    job.marks[0] = 0;
    assert_eq!(job.load(true), (0, 0));
    assert_eq!(job.state, State { reader: 29, mode: 1, tracing: 1, ..START });
    assert_eq!(
        (job.word(0), job.word(500)),
        ("+0000000000".to_string(), "+0000000001".to_string())
    );
    let before = job.state;
    job.numbers = 10;
    assert_eq!((job.load(false), job.state), ((12, 0), before));
}

#[test]
fn load_keeps_other_cells_and_lets_later_words_win() {
    let mut job = Job::new().with(700, &["-7777777777"]);
    job.deck = "20000500+0000000001+000000000200010000501-0000000003000T501999".to_string();
    assert_eq!(job.load(false), (0, 0));
    assert_eq!(
        (job.word(700), job.word(501)),
        ("-7777777777".to_string(), "-0000000003".to_string())
    );
    assert_eq!((job.marks[502], job.cells[502]), (0, super::STRAY));
}
