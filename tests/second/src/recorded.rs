//! One session as the program around the machine runs it: a deck on an empty drum, one load and one
//! run, the cards and behind them the Z card; or number and place, where load or run does not begin.

use std::fs;
use std::io::Write;

use crate::model::calls::{load, run, Run};
use crate::model::drum::CELLS;
use crate::model::order::Sums;
use crate::model::state::{State, NUMBERS};
use crate::model::stop::Reason;

/// Enough for every card of a session that is kept in a file.
const ROOM: usize = 8 << 20;

struct Choice {
    traced: bool,
    stop: bool,
    budget: u64,
}

fn choice(words: &[&str]) -> Option<Choice> {
    let mut choice = Choice { traced: false, stop: false, budget: 999_999 };
    for word in words {
        match *word {
            "traced" => choice.traced = true,
            "stop" => choice.stop = true,
            _ => choice.budget = word.strip_prefix("budget=")?.parse().ok()?,
        }
    }
    Some(choice)
}

/// Writes what comes out; false if the file cannot be read or the answer not be written.
pub fn session(file: &str, words: &[&str]) -> Option<bool> {
    let choice = choice(words)?;
    let Ok(deck) = fs::read(file) else { return Some(false) };
    Some(std::io::stdout().write_all(&answer(&deck, choice)).is_ok())
}

fn answer(deck: &[u8], choice: Choice) -> Vec<u8> {
    let (mut cells, mut marks) = (vec![0; CELLS], vec![0; CELLS]);
    let (mut numbers, mut out) = (vec![0; NUMBERS], vec![0; ROOM]);
    if let Err(refused) =
        load(&mut cells, &mut marks, deck, &mut numbers, choice.traced, &mut |_| {})
    {
        return refusal(refused.reason, refused.place);
    }
    let lent = Run {
        cells: &mut cells,
        marks: &mut marks,
        deck,
        out: &mut out,
        state: &mut numbers,
        budget: choice.budget,
        switch_on_stop: choice.stop,
        sums: Sums::Carry,
    };
    let ended = run(lent, &mut |_| {});
    if ended.reason.entry().is_some() {
        return refusal(ended.reason, ended.place);
    }
    out.truncate(ended.written as usize);
    let State { location, .. } = State::of_numbers(&numbers).expect("the state of a run");
    let (number, shown) = (ended.reason.number(), ended.shown.text());
    out.extend(format!("Z{number:02}{location:04}{:06}{shown}", ended.count).bytes());
    out
}

fn refusal(reason: Reason, place: u64) -> Vec<u8> {
    format!("{} {place}", reason.number()).into_bytes()
}

#[cfg(test)]
mod tests {
    use super::*;

    const DECK: &str = "30001101+1200201202+0410202202+0000202000007\
                        20002200+1000000050+2000000050007\
                        T101007";

    fn said(deck: &str, words: &[&str]) -> String {
        String::from_utf8(answer(deck.as_bytes(), choice(words).unwrap())).unwrap()
    }

    #[test]
    fn the_session_of_the_paper() {
        assert_eq!(said(DECK, &[]), "10001202+3000000050007Z000103000003+3000000050");
        assert_eq!(said(DECK, &["budget=1"]), "Z020102000001+0000000000");
        assert_eq!(said(DECK, &["budget=1000000"]), "12 0");
        assert_eq!(said(&DECK[..77], &["traced"]), "18 77");
        assert_eq!(said(&DECK.replace("+041", "+O41"), &[]), "15 20");
        let lost = DECK.replace("+2000000050", "-9990000049");
        assert_eq!(said(&lost, &["stop"]), "Z030102000001+1000000047");
        assert!(choice(&["trace"]).is_none() && choice(&["budget=x"]).is_none());
    }
}
