//! Decks of drums, worked by hand.

use super::STRAY;
use crate::chance::Chance;
use crate::decks::build::any_word;
use crate::model::calls::load;
use crate::model::card::{read_card, Card};
use crate::model::making::make;
use crate::model::word::{Word, MINUS};

const UNTOUCHED: u8 = b'.';

/// The longest deck there is.
const ALL: usize = 13_196;

struct Kept {
    cells: Vec<u64>,
    marks: Vec<u8>,
}

impl Kept {
    /// Nothing is marked, and every cell holds what is no word.
    fn empty() -> Kept {
        Kept { cells: vec![STRAY; 1_000], marks: vec![0; 1_000] }
    }

    /// These cells are marked, and each holds its own location.
    fn of(cells: impl IntoIterator<Item = usize>) -> Kept {
        let mut kept = Kept::empty();
        for cell in cells {
            kept.put(cell, cell as u64);
        }
        kept
    }

    fn put(&mut self, cell: usize, number: u64) {
        self.cells[cell] = number;
        self.marks[cell] = 1;
    }

    /// The number and all of the output. Drum and marks are lent only to be read.
    fn call(&self, room: usize, first_order: u64, problem: u64) -> (u64, Vec<u8>) {
        let mut out = vec![UNTOUCHED; room];
        let made = make(&self.cells, &self.marks, &mut out, first_order, problem);
        let rest = made.map_or(0, |written| written as usize);
        assert!(out[rest..].iter().all(|&byte| byte == UNTOUCHED), "written past the deck");
        out.truncate(rest);
        (made.map_or_else(|reason| reason.number(), |_| 0), out)
    }

    fn number(&self, room: usize, first_order: u64, problem: u64) -> u64 {
        self.call(room, first_order, problem).0
    }

    /// The deck with first order 101 and problem number 007, which just fits its room and does not
    /// fit one of a byte less.
    fn deck(&self) -> String {
        let (number, deck) = self.call(ALL + 9, 101, 7);
        assert_eq!(number, 0);
        assert_eq!(self.call(deck.len(), 101, 7), (0, deck.clone()));
        assert_eq!(self.call(deck.len() - 1, 101, 7), (22, vec![]));
        String::from_utf8(deck).expect("cards are ASCII")
    }

    /// The number, the location and the count of words of each data card.
    fn cards(&self) -> Vec<(u64, u64, usize)> {
        let deck = self.deck();
        let (mut rest, mut cards) = (deck.as_bytes(), Vec::new());
        while rest != b"T101007" {
            let (card, length) = read_card(rest).expect("a good card");
            let Card::Data(card) = card else { panic!("a first-order card before the end") };
            assert_eq!(card.problem, 7);
            cards.push((card.number, card.location, card.words.len()));
            rest = &rest[length..];
        }
        cards
    }
}

#[test]
fn the_deck_of_the_paper_comes_back() {
    let paper = "30001101+1200201202+0410202202+0000202000007\
                 20002200+1000000050+2000000050007T101007";
    let mut kept = Kept::empty();
    let done =
        load(&mut kept.cells, &mut kept.marks, paper.as_bytes(), &mut [0; 9], false, &mut |_| {});
    assert!(done.is_ok());
    assert_eq!(kept.deck(), paper);
}

#[test]
fn no_data_card() {
    assert_eq!(Kept::empty().deck(), "T101007");
    assert_eq!(Kept::of([0]).deck(), "T101007");
    for room in 0..7 {
        assert_eq!(Kept::empty().number(room, 101, 7), 22);
    }
}

#[test]
fn one_cell() {
    assert_eq!(Kept::of([999]).deck(), "10001999+0000000999007T101007");
    assert_eq!(Kept::of([1]).deck(), "10001001+0000000001007T101007");
    assert_eq!(Kept::of([0, 1]).deck(), "10001001+0000000001007T101007");
    assert_eq!(Kept::of([0, 1, 999]).deck(), "10001001+000000000100710002999+0000000999007T101007");
}

#[test]
fn all_cells() {
    for first in [0, 1] {
        let kept = Kept::of(first..1_000);
        assert_eq!(kept.deck().len(), ALL);
        let cards = kept.cards();
        let due: Vec<_> = (1..=199).map(|i| (i, 5 * i - 4, 5)).chain([(200, 996, 4)]).collect();
        assert_eq!(cards, due);
        let end = "40200996+0000000996+0000000997+0000000998+0000000999007T101007";
        assert!(kept.deck().ends_with(end));
    }
}

#[test]
fn every_second_cell() {
    let odd = Kept::of((1..1_000).step_by(2));
    assert_eq!(odd.deck().len(), 500 * 22 + 7);
    assert_eq!(odd.cards(), (1..=500).map(|i| (i, 2 * i - 1, 1)).collect::<Vec<_>>());
    let even = Kept::of((0..1_000).step_by(2));
    assert_eq!(even.deck().len(), 499 * 22 + 7);
    assert_eq!(even.cards(), (1..=499).map(|i| (i, 2 * i, 1)).collect::<Vec<_>>());
    assert!(even.deck().ends_with("10499998+0000000998007T101007"));
}

#[test]
fn runs_at_both_ends() {
    assert_eq!(Kept::of(1..5).cards(), [(1, 1, 4)]);
    assert_eq!(Kept::of(1..6).cards(), [(1, 1, 5)]);
    assert_eq!(Kept::of(1..7).cards(), [(1, 1, 5), (2, 6, 1)]);
    assert_eq!(Kept::of(1..11).cards(), [(1, 1, 5), (2, 6, 5)]);
    assert_eq!(Kept::of(1..12).cards(), [(1, 1, 5), (2, 6, 5), (3, 11, 1)]);
    assert_eq!(Kept::of(996..1_000).cards(), [(1, 996, 4)]);
    assert_eq!(Kept::of(995..1_000).cards(), [(1, 995, 5)]);
    assert_eq!(Kept::of(994..1_000).cards(), [(1, 994, 5), (2, 999, 1)]);
    assert_eq!(Kept::of(990..1_000).cards(), [(1, 990, 5), (2, 995, 5)]);
    assert_eq!(Kept::of(989..1_000).cards(), [(1, 989, 5), (2, 994, 5), (3, 999, 1)]);
    // Cell 000 does not belong to the run behind it.
    assert_eq!(Kept::of(0..6).cards(), [(1, 1, 5)]);
    assert_eq!(Kept::of(0..7).cards(), [(1, 1, 5), (2, 6, 1)]);
}

#[test]
fn a_gap_ends_a_card() {
    assert_eq!(Kept::of([1, 2, 4, 5]).cards(), [(1, 1, 2), (2, 4, 2)]);
    assert_eq!(
        Kept::of((10..16).chain(17..21).chain([22])).cards(),
        [(1, 10, 5), (2, 15, 1), (3, 17, 4), (4, 22, 1)]
    );
    let kept = Kept::of((1..7).chain(994..1_000));
    assert_eq!(kept.cards(), [(1, 1, 5), (2, 6, 1), (3, 994, 5), (4, 999, 1)]);
}

#[test]
fn any_word_goes_as_it_is() {
    let mut kept = Kept::empty();
    for (cell, number) in (500..).zip([0, MINUS, 1, MINUS + 999_999_999, 2 * MINUS - 1]) {
        kept.put(cell, number);
    }
    assert_eq!(
        kept.deck(),
        "50001500+0000000000-0000000000+0000000001-0999999999-9999999999007T101007"
    );
}

#[test]
fn first_order_and_problem_number() {
    let kept = Kept::of([5]);
    assert_eq!(kept.call(29, 5, 0), (0, b"10001005+0000000005000T005000".to_vec()));
    // Its cell need not be marked.
    assert_eq!(kept.call(29, 1, 999), (0, b"10001005+0000000005999T001999".to_vec()));
    assert_eq!(kept.call(29, 999, 42), (0, b"10001005+0000000005042T999042".to_vec()));
    for first in [0, 1_000, 1_001, 1 << 16 | 5, 1 << 32 | 5, u64::MAX] {
        assert_eq!(kept.number(29, first, 0), 12, "first order {first}");
    }
    for problem in [1_000, 1_001, 1 << 16 | 5, 1 << 32 | 5, u64::MAX] {
        assert_eq!(kept.number(29, 5, problem), 12, "problem number {problem}");
    }
    assert_eq!(kept.number(29, 0, 1_000), 12);
}

/// With a good first order and room, and then with neither: 10 either way.
fn is_ten(change: impl FnOnce(&mut Kept)) -> bool {
    let mut kept = Kept::of([0, 5, 999]);
    change(&mut kept);
    let numbers = [(100, 5, 7), (100, 0, 7), (100, 5, 1_000), (0, 5, 7), (0, 1_000, 1_000)]
        .map(|(room, first, problem)| kept.number(room, first, problem));
    assert!(numbers == [10; 5] || numbers == [0, 12, 12, 22, 12], "{numbers:?}");
    numbers == [10; 5]
}

#[test]
fn ten_comes_before_twelve_before_twenty_two() {
    assert!(!is_ten(|_| {}));
    for length in [0, 1, 999, 1_001, 2_000] {
        assert!(is_ten(|kept| kept.cells.resize(length, 0)), "a drum of {length}");
        assert!(is_ten(|kept| kept.marks.resize(length, 0)), "marks of {length}");
    }
    for cell in [0, 1, 5, 998, 999] {
        for mark in [2, 3, 128, 255] {
            assert!(is_ten(|kept| kept.marks[cell] = mark), "cell {cell}, mark {mark}");
        }
        for number in [2 * MINUS, 3 * MINUS, u64::MAX] {
            assert!(is_ten(|kept| kept.put(cell, number)), "cell {cell} holds {number}");
        }
        assert!(!is_ten(|kept| kept.put(cell, 2 * MINUS - 1)), "cell {cell}");
    }
    for number in [0, 2 * MINUS, u64::MAX] {
        assert!(!is_ten(|kept| (kept.marks[0], kept.cells[0]) = (0, number)));
        assert!(!is_ten(|kept| kept.cells[6] = number));
    }
}

/// So many cards, at least, for cells that are loaded once each.
fn fewest(marks: &[u8]) -> usize {
    let mut least = vec![0; 1_001];
    for behind in 2..=1_000 {
        let ends_here = |words: &usize| marks[behind - words..behind].iter().all(|&mark| mark == 1);
        least[behind] = if marks[behind - 1] == 0 {
            least[behind - 1]
        } else {
            let cards = (1..=5).take_while(|words| *words < behind).filter(ends_here);
            1 + cards.map(|words| least[behind - words]).min().expect("a card of one word")
        };
    }
    least[1_000]
}

#[test]
fn a_drum_comes_back_from_the_fewest_cards() {
    let chance = &mut Chance::new(11);
    for turn in 0..200 {
        let mut kept = Kept::empty();
        for cell in 0..1_000 {
            if chance.below(200) < turn {
                kept.put(cell, any_word(chance).cell());
            }
        }
        assert_eq!(kept.cards().len(), fewest(&kept.marks));
        let (mut cells, mut marks, mut state) = (vec![STRAY - 1; 1_000], vec![0; 1_000], [1; 9]);
        let deck = kept.deck();
        let done = load(&mut cells, &mut marks, deck.as_bytes(), &mut state, true, &mut |_| {});
        assert!(done.is_ok());
        assert_eq!(state, [101, 0, 0, 0, 0, 7, deck.len() as u64, 1, 1]);
        assert_eq!((cells[0], marks[0]), (Word::PLUS_ZERO.cell(), 1));
        assert_eq!(marks[1..], kept.marks[1..]);
        for cell in 1..1_000 {
            let due = if kept.marks[cell] == 1 { kept.cells[cell] } else { STRAY - 1 };
            assert_eq!(cells[cell], due, "cell {cell}");
        }
    }
}
