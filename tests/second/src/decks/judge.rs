//! The judge of the answers to the deck check.

use std::collections::BTreeMap;

use super::seen::{reachable, seen, Seen};
use super::{answer_of, cases::case, UNHURT};
use crate::files::Reading;
use crate::model::deck::{check, BadDeck, Deck};
use crate::verdict::{often_enough, Verdict};

/// What the decks have shown, and how often each number was due.
#[derive(Default)]
struct Covered {
    seen: BTreeMap<Seen, u64>,
    numbers: BTreeMap<u64, u64>,
}

impl Covered {
    fn take(&mut self, deck: &[u8], checked: &Result<Deck, BadDeck>) {
        *self.numbers.entry(answer_of(checked).0).or_default() += 1;
        for shown in seen(deck, checked) {
            *self.seen.entry(shown).or_default() += 1;
        }
    }

    fn times(&self, wanted: Seen) -> u64 {
        self.seen.get(&wanted).copied().unwrap_or(0)
    }

    /// Prints what was covered, and requires all that can be reached.
    fn close(&self, count: u64, verdict: &mut Verdict) {
        for (number, times) in &self.numbers {
            println!("covered: answer {number:02}: {times}");
        }
        let all = reachable();
        let rarest = all.iter().min_by_key(|&&wanted| self.times(wanted)).expect("a list");
        println!("covered: {} things, the rarest {rarest:?}: {}", all.len(), self.times(*rarest));
        for wanted in all {
            verdict.require(format!("{wanted:?}"), self.times(wanted), often_enough(count));
        }
    }
}

/// Whether every answer is the model's, and everything that can be reached was.
pub fn judge(seed: u64, count: u64, path: &str) -> bool {
    let mut answers = Reading::open(path);
    let mut verdict = Verdict::new();
    let mut covered = Covered::default();
    for index in 0..count {
        let deck = case(seed, index);
        let checked = check(&deck);
        covered.take(&deck, &checked);
        let Some([number, place, touched]) = answers.some() else {
            verdict.difference(|| format!("deck {index}: the answers end before it"));
            break;
        };
        if (number, place) != answer_of(&checked) {
            verdict.difference(|| tell(index, &deck, &checked, (number, place)));
        }
        if touched != UNHURT {
            verdict.difference(|| format!("deck {index}: touched {touched}"));
        }
    }
    verdict.end_of_answers(answers.at_end());
    covered.close(count, &mut verdict);
    verdict.close("decks", count, "decks", seed)
}

fn tell(index: u64, deck: &[u8], checked: &Result<Deck, BadDeck>, got: (u64, u64)) -> String {
    let start = deck[..deck.len().min(500)].escape_ascii();
    let length = deck.len();
    let due = answer_of(checked);
    let fault = match checked {
        Ok(_) => "good".to_string(),
        Err(bad) => format!("{:?} in the card at {}", bad.fault, bad.start),
    };
    format!(
        "deck {index} of {length} bytes, {fault}: model {} {}, answer {} {}: {start}",
        due.0, due.1, got.0, got.1
    )
}
