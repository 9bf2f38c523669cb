//! The judge of the answers to roots.

use std::collections::{BTreeMap, HashSet};

use super::cases::{case, whole};
use super::law::is_root;
use super::part::PARITIES;
use super::seen::{others, positive, seen, turns, Seen};
use crate::model::word::Word;
use crate::numbers::cases::Case;
use crate::numbers::judge::compare;
use crate::verdict::{often_enough, Verdict};

/// What the roots have shown, how often each number was due, and the leading parts of those turns
/// that the sweep goes through.
struct Covered {
    seen: BTreeMap<Seen, u64>,
    parts: BTreeMap<Seen, HashSet<u64>>,
    numbers: BTreeMap<u64, u64>,
}

impl Covered {
    fn new() -> Covered {
        let swept = turns().into_iter().filter(|(_, all)| all.is_some());
        let swept = swept.flat_map(|(turn, _)| PARITIES.map(|parity| Seen::Root(turn, parity)));
        let parts = swept.map(|turn| (turn, HashSet::new())).collect();
        Covered { seen: BTreeMap::new(), parts, numbers: BTreeMap::new() }
    }

    fn take(&mut self, operand: u64, number: u64, word: u64) {
        *self.numbers.entry(number).or_default() += 1;
        for shown in seen(operand, word / 100) {
            *self.seen.entry(shown).or_default() += 1;
            if let Some(parts) = self.parts.get_mut(&shown) {
                parts.insert(operand / 100);
            }
        }
    }

    fn times(&self, wanted: Seen) -> u64 {
        self.seen.get(&wanted).copied().unwrap_or(0)
    }

    /// Prints what was covered, and requires all that can be reached.
    fn close(&self, count: u64, verdict: &mut Verdict) {
        for (number, times) in &self.numbers {
            println!("covered: answer {number:02}: {times}");
        }
        let all = others();
        let rarest = all.iter().min_by_key(|&&wanted| self.times(wanted)).expect("a list");
        println!("covered: {} things, the rarest {rarest:?}: {}", all.len(), self.times(*rarest));
        for wanted in all {
            verdict.require(format!("{wanted:?}"), self.times(wanted), often_enough(count));
        }
        for (turn, parts) in turns() {
            for parity in PARITIES {
                let wanted = Seen::Root(turn, parity);
                verdict.require(format!("{wanted:?}"), self.times(wanted), often_enough(count));
                match parts {
                    None => println!("covered: {wanted:?}: {}", self.times(wanted)),
                    Some(parts) => self.swept(wanted, parts[parity as usize], count, verdict),
                }
            }
        }
    }

    /// The same for the leading parts that the sweep goes through: of a stream that is long enough
    /// every one is required.
    fn swept(&self, wanted: Seen, all: u64, count: u64, verdict: &mut Verdict) {
        let parts = self.parts[&wanted].len() as u64;
        println!("covered: {wanted:?}: {}, leading parts {parts} of {all}", self.times(wanted));
        if count >= whole() {
            verdict.require(format!("leading parts of {wanted:?}"), parts, all);
        }
    }
}

/// Whether every answer is the model's, each root is one by squares too, and everything that can be
/// reached was.
pub fn judge(seed: u64, count: u64, path: &str) -> bool {
    let mut verdict = Verdict::new();
    let mut covered = Covered::new();
    let cases = (0..count).map(|index| case(seed, index));
    compare(path, cases, &mut verdict, |case, due, verdict| {
        let &[number, word] = due else { panic!("a root is answered with two numbers") };
        covered.take(case.a, number, word);
        if !holds(case, number, word) {
            verdict.difference(|| format!("sqrt {}: not the root: {due:?}", case.a));
        }
    });
    covered.close(count, &mut verdict);
    verdict.close("roots", count, "operations", seed)
}

/// Whether the model's answer is the root by squares, where there is one.
fn holds(case: Case, number: u64, word: u64) -> bool {
    let Some(x) = positive(case.a) else { return true };
    let root = Word::of_cell(word).and_then(Word::number);
    number == 0 && root.is_some_and(|root| is_root(x, root))
}

#[cfg(test)]
mod tests {
    use super::*;
    use crate::numbers::cases::SQRT;

    #[test]
    fn an_answer_of_the_model_must_be_the_root() {
        let two = Case { operation: SQRT, a: 2_000_000_050, b: 0 };
        assert!(holds(two, 0, 1_414_213_650));
        assert!(!holds(two, 0, 1_414_213_550));
        assert!(!holds(two, 0, 1_414_213_651));
        assert!(!holds(two, 0, 0) && !holds(two, 0, u64::MAX) && !holds(two, 26, 0));
        assert!(holds(Case { a: 0, ..two }, 0, 0));
    }
}
