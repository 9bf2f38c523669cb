//! Orders a second of the model on a deck that goes round without end: the best of several rounds.

use std::fs;
use std::time::Instant;

use crate::model::calls::{load, run, Run};
use crate::model::drum::CELLS;
use crate::model::order::Sums;
use crate::model::state::NUMBERS;
use crate::model::stop::Reason;

const ROUNDS: usize = 5;
const ROOM: usize = 7_700_000;

/// Prints the figure; false if the deck cannot be read, loaded, or run to the end of the budget.
pub fn orders(file: &str, mode: &str) -> Option<bool> {
    let traced = match mode {
        "plain" => false,
        "traced" => true,
        _ => return None,
    };
    let Ok(deck) = fs::read(file) else { return Some(false) };
    let budget = if traced { 100_000 } else { 999_999 };
    let (mut cells, mut marks) = (vec![0; CELLS], vec![0; CELLS]);
    let (mut state, mut out) = (vec![0; NUMBERS], vec![0; ROOM]);
    let mut right = load(&mut cells, &mut marks, &deck, &mut state, traced, &mut |_| {}).is_ok();
    let mut best = f64::INFINITY;
    for _ in 0..ROUNDS {
        let began = Instant::now();
        let lent = Run {
            cells: &mut cells,
            marks: &mut marks,
            deck: &deck,
            out: &mut out,
            state: &mut state,
            budget,
            switch_on_stop: false,
            sums: Sums::Carry,
        };
        right &= run(lent, &mut |_| {}).reason == Reason::BudgetUsed;
        best = best.min(began.elapsed().as_secs_f64());
    }
    println!("{:.0}", budget as f64 / best);
    Some(right)
}
