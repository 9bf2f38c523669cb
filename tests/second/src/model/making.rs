//! The deck of a drum (W-201): cards that load the marked cells 001 to 999 again.

use super::card::{DataCard, LAST_CELL};
use super::drum;
use super::stop::Reason;
use super::word::Word;

/// A card holds so many words at most.
const WORDS: usize = 5;

/// Writes the deck to the start of `out` and answers its length; a refused call writes nothing. 10,
/// 12 and 22 are judged in this order.
pub fn make(
    cells: &[u64],
    marks: &[u8],
    out: &mut [u8],
    first_order: u64,
    problem: u64,
) -> Result<u64, Reason> {
    drum::judge(cells, marks)?;
    let lines = [
        (first_order == 0, Reason::FirstOrder000),
        (first_order > LAST_CELL, Reason::FirstOrderAbove999),
        (problem > 999, Reason::ProblemAbove999),
    ];
    if let Some((_, reason)) = lines.into_iter().find(|(holds, _)| *holds) {
        return Err(reason);
    }
    let deck = deck(cells, marks, first_order, problem);
    let to = out.get_mut(..deck.len()).ok_or(Reason::NoRoomForDeck)?;
    to.copy_from_slice(deck.as_bytes());
    Ok(deck.len() as u64)
}

/// All cards, on a drum and with numbers that were found good.
fn deck(cells: &[u64], marks: &[u8], first_order: u64, problem: u64) -> String {
    let mut cards = Vec::new();
    for Run { start, words } in runs(cells, marks) {
        for (location, words) in (start..).step_by(WORDS).zip(words.chunks(WORDS)) {
            let number = cards.len() as u64 + 1;
            cards.push(DataCard { number, location, words: words.to_vec(), problem });
        }
    }
    let mut deck: String = cards.iter().map(DataCard::text).collect();
    deck += &format!("T{first_order:03}{problem:03}");
    deck
}

/// Marked cells side by side, with none before them and none behind.
struct Run {
    start: u64,
    words: Vec<Word>,
}

/// The runs of a good drum in ascending order. Cell 000 is in none.
fn runs(cells: &[u64], marks: &[u8]) -> Vec<Run> {
    let owned: Vec<(u64, Word)> = (1..=LAST_CELL)
        .filter(|&cell| marks[cell as usize] == 1)
        .map(|cell| (cell, Word::of_cell(cells[cell as usize]).expect("a marked cell's word")))
        .collect();
    let neighbours = |a: &(u64, Word), b: &(u64, Word)| a.0 + 1 == b.0;
    owned
        .chunk_by(neighbours)
        .map(|run| Run { start: run[0].0, words: run.iter().map(|(_, word)| *word).collect() })
        .collect()
}
