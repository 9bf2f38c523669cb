//! The two calls on a whole machine, as the C calls give them: load and run.

use super::deck::{self, Deck};
use super::drum::Drum;
use super::event::{Before, Event, Large};
use super::machine::Machine;
use super::order::Sums;
use super::state::State;
use super::stop::Reason;
use super::word::Word;

/// What a run answers.
#[derive(Clone, Copy, Debug, PartialEq, Eq)]
pub struct Ended {
    pub reason: Reason,
    pub place: u64,
    pub count: u64,
    pub shown: Word,
    pub written: u64,
}

/// A refusal at entry and the place it tells.
#[derive(Clone, Copy, Debug, PartialEq, Eq)]
pub struct Refusal {
    pub reason: Reason,
    pub place: u64,
}

impl Refusal {
    fn of(reason: Reason) -> Refusal {
        Refusal { reason, place: 0 }
    }
}

/// What both calls judge first: drum and marks, then the deck, then the length of the state.
fn enter<'a>(
    cells: &'a mut [u64],
    marks: &'a mut [u8],
    deck: &[u8],
    state: &[u64],
) -> Result<(Drum<'a>, Deck, State), Refusal> {
    let drum = Drum::lent(cells, marks).map_err(Refusal::of)?;
    let deck = deck::check(deck)
        .map_err(|bad| Refusal { reason: Reason::Deck(bad.fault), place: bad.place as u64 })?;
    let state = State::of_numbers(state).map_err(Refusal::of)?;
    Ok((drum, deck, state))
}

/// Stores the cards before T and sets the state; of the old state nothing is judged.
pub fn load(
    cells: &mut [u64],
    marks: &mut [u8],
    deck: &[u8],
    state: &mut [u64],
    traced: bool,
    witness: &mut dyn FnMut(Event),
) -> Result<(), Refusal> {
    let (mut drum, deck, _) = enter(cells, marks, deck, state)
        .inspect_err(|refusal| witness(Event::LoadRefused(refusal.reason)))?;
    witness(Event::Loaded { traced, cell_000: before(&drum) });
    for (_, card) in &deck.before {
        for (cell, &word) in (card.location..).zip(&card.words) {
            drum.store(cell, word);
        }
    }
    drum.store(0, Word::PLUS_ZERO);
    state.copy_from_slice(&State::loaded(&deck, traced).numbers());
    Ok(())
}

fn before(drum: &Drum) -> Before {
    match drum.word(0) {
        None => Before::Unmarked,
        Some(Word::PLUS_ZERO) => Before::PlusZero,
        Some(_) => Before::OtherWord,
    }
}

/// What is lent to a run, and what the caller chooses for it.
pub struct Run<'a> {
    pub cells: &'a mut [u64],
    pub marks: &'a mut [u8],
    pub deck: &'a [u8],
    pub out: &'a mut [u8],
    pub state: &'a mut [u64],
    pub budget: u64,
    pub switch_on_stop: bool,
    pub sums: Sums,
}

/// Does orders until one stops or is refused, or the budget is used.
pub fn run(lent: Run, witness: &mut dyn FnMut(Event)) -> Ended {
    let Run { cells, marks, deck, out, state: numbers, budget, switch_on_stop, sums } = lent;
    let (drum, deck, state) = match enter_run(cells, marks, deck, numbers, budget, witness) {
        Ok(entered) => entered,
        Err(Refusal { reason, place }) => {
            return Ended { reason, place, count: 0, shown: Word::PLUS_ZERO, written: 0 };
        }
    };
    let mut machine = Machine {
        drum,
        deck,
        state,
        switch_on_stop,
        sums,
        out,
        written: 0,
        recoded: None,
        witness,
    };
    let (count, reason, shown) = orders(&mut machine, budget);
    let written = machine.written as u64;
    numbers.copy_from_slice(&machine.state.numbers());
    if count > 1_000 {
        (machine.witness)(Event::Large(Large::CountAbove1000));
    }
    if written > 65_535 {
        let traced = machine.state.traced_mode();
        let large = if traced { Large::TracedOutput } else { Large::PunchedOutput };
        (machine.witness)(Event::Large(large));
    }
    Ended { reason, place: 0, count, shown, written }
}

/// A run asks more of its state than a load does.
fn enter_run<'a>(
    cells: &'a mut [u64],
    marks: &'a mut [u8],
    deck: &[u8],
    numbers: &[u64],
    budget: u64,
    witness: &mut dyn FnMut(Event),
) -> Result<(Drum<'a>, Deck, State), Refusal> {
    let idle = budget == 0;
    let (drum, deck, state) = enter(cells, marks, deck, numbers)
        .inspect_err(|&Refusal { reason, .. }| witness(Event::RunRefused { reason, idle }))?;
    let faults = state.faults(budget, &drum, &deck);
    let Some(&reason) = faults.first() else { return Ok((drum, deck, state)) };
    let alone = faults.len() == 1;
    witness(if alone { Event::RunRefused { reason, idle } } else { Event::RunRefusedForSeveral });
    Err(Refusal::of(reason))
}

/// The orders completed, why it ended, and the word shown.
fn orders(machine: &mut Machine, budget: u64) -> (u64, Reason, Word) {
    let mut count = 0;
    while count < budget {
        let (last, traced) = (count + 1 == budget, machine.state.traced_mode());
        match machine.step() {
            Ok(None) => count += 1,
            Ok(Some((reason, word))) => {
                if reason == Reason::DigitsLost {
                    (machine.witness)(Event::StoppedForLoss { last, traced });
                }
                return (count + 1, reason, word);
            }
            Err(reason) => {
                if let Reason::DigitsPast(_) = reason {
                    (machine.witness)(Event::DigitsRefused { last, traced });
                }
                return (count, reason, Word::PLUS_ZERO);
            }
        }
    }
    (machine.witness)(Event::BudgetUsed { zero: budget == 0 });
    (count, Reason::BudgetUsed, Word::PLUS_ZERO)
}
