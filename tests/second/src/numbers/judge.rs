//! The judge of the answers to the operations.

use std::collections::BTreeMap;

use super::cases::{case, is_sum, Case, SUMS};
use super::seen::{self, Seen};
use super::{answer, NAMES};
use crate::files::Reading;
use crate::verdict::{often_enough, Verdict};

/// The stop numbers that each operation can answer, 0 being the answer with a word.
const REACHABLE: [&[u64]; 7] = [
    &[0, 24, 27],
    &[0, 24, 27],
    &[0, 24, 27],
    &[0, 24, 25, 27],
    &[0, 24, 27],
    &[0, 24, 26],
    &[0, 24],
];

/// What the operations have answered, and what sums and differences came to.
#[derive(Default)]
struct Coverage {
    numbers: BTreeMap<(u64, u64), u64>,
    sums: BTreeMap<(u64, Seen), u64>,
}

impl Coverage {
    fn saw(&mut self, case: Case, number: u64) {
        *self.numbers.entry((case.operation, number)).or_default() += 1;
        if is_sum(case.operation) {
            for seen in seen::seen(case) {
                *self.sums.entry((case.operation, seen)).or_default() += 1;
            }
        }
    }

    /// Prints what was covered, and requires all that can be.
    fn require_all(&self, count: u64, verdict: &mut Verdict) {
        for (operation, numbers) in (0..).zip(REACHABLE) {
            let name = NAMES[operation as usize];
            let times = |number| self.numbers.get(&(operation, number)).copied().unwrap_or(0);
            let counts = numbers.iter().map(|&number| format!("{number:02}: {}", times(number)));
            println!("covered: {name} {}", counts.collect::<Vec<_>>().join(", "));
            for &number in numbers {
                let what = format!("{name} answering {number:02}");
                verdict.require(what, times(number), often_enough(count));
            }
        }
        let of_sums = self.numbers.iter().filter(|(key, _)| is_sum(key.0));
        let sums: u64 = of_sums.map(|(_, times)| times).sum();
        println!("covered: sums and differences: {sums}");
        verdict.require("sums and differences".to_string(), sums, count * 2 / 5);
        for operation in SUMS {
            let name = NAMES[operation as usize];
            let mut near_equals = 0;
            for seen in seen::REACHABLE {
                let times = self.sums.get(&(operation, seen)).copied().unwrap_or(0);
                println!("covered: {name} {seen:?}: {times}");
                verdict.require(format!("{name} {seen:?}"), times, often_enough(count));
                near_equals += if seen.of_near_equals() { times } else { 0 };
            }
            verdict.require(format!("{name} of near equals"), near_equals, count / 100);
        }
    }
}

/// Whether every answer is the model's, and everything that can be reached was.
pub fn judge(seed: u64, count: u64, path: &str) -> bool {
    let mut verdict = Verdict::new();
    let mut coverage = Coverage::default();
    let cases = (0..count).map(|index| case(seed, index));
    compare(path, cases, &mut verdict, |case, due, _| coverage.saw(case, due[0]));
    coverage.require_all(count, &mut verdict);
    verdict.close("numbers", count, "operations", seed)
}

/// Compares every answer with the model's, which `saw` is told beside its case.
pub fn compare(
    path: &str,
    cases: impl Iterator<Item = Case>,
    verdict: &mut Verdict,
    mut saw: impl FnMut(Case, &[u64], &mut Verdict),
) {
    let mut answers = Reading::open(path);
    for (index, case) in (0..).zip(cases) {
        let due = answer(case);
        saw(case, &due, verdict);
        let Some(got) = answers.many(due.len() as u64) else {
            verdict.difference(|| format!("case {index}: the answers end before it"));
            break;
        };
        if got != due {
            verdict.difference(|| tell(index, case, &due, &got));
        }
    }
    verdict.end_of_answers(answers.at_end());
}

fn tell(index: u64, case: Case, due: &[u64], got: &[u64]) -> String {
    let Case { operation, a, b } = case;
    let name = NAMES[operation as usize];
    format!("case {index}: {name} {a} {b}: model {due:?}, answer {got:?}")
}
