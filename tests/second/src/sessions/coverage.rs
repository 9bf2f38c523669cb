//! What the sessions covered, told by order and by stop number.

use std::collections::{BTreeMap, BTreeSet};

use super::draw::codes;
use super::makes::{self, Seen};
use super::reach;
use crate::model::event::{Event, Moved, Sum, Test, Way};
use crate::model::order::{Built, Code, Second, BUILT};
use crate::model::stop::Reason;
use crate::verdict::{often_enough, Verdict};

#[derive(Default)]
pub struct Coverage {
    events: BTreeMap<Event, u64>,
    /// How often a run, or a refused load, answered each stop number.
    numbers: BTreeMap<u64, u64>,
    makings: BTreeMap<Seen, u64>,
}

impl Coverage {
    pub fn saw(&mut self, event: Event) {
        *self.events.entry(event).or_default() += 1;
    }

    pub fn ended(&mut self, number: u64) {
        *self.numbers.entry(number).or_default() += 1;
    }

    pub fn saw_making(&mut self, seen: Seen) {
        *self.makings.entry(seen).or_default() += 1;
    }

    fn times(&self, wanted: impl Fn(Event) -> bool) -> u64 {
        self.events.iter().filter(|(event, _)| wanted(**event)).map(|(_, times)| times).sum()
    }

    /// Prints all that was covered.
    pub fn tell(&self) {
        for Built { o1, second, code, name } in BUILT {
            let operation = match second {
                Second::Any | Second::AnyBut000 => format!("{o1}"),
                Second::Just(digits) => format!("{o1} {digits:03}"),
            };
            println!("covered: {operation} {name}: {}", self.of_code(code));
        }
        let completed = self.times(|event| matches!(event, Event::Completed { .. }));
        println!("covered: {completed} orders completed");
        for (number, times) in &self.numbers {
            println!("covered: answer {number:02}: {times}");
        }
        for wanted in reach::LOSSES {
            let [plain, off, on] = reach::TRACINGS.map(|state| {
                self.times(|event| match event {
                    Event::Lost { loss, tracing, .. } => loss == wanted && tracing == state,
                    _ => false,
                })
            });
            println!("covered: {wanted:?}: plain {plain}, tracing off {off}, on {on}");
        }
        for event in reach::of_loss_stops() {
            println!("covered: {event:?}: {}", self.times(|other| other == event));
        }
        self.tell_moves();
        self.tell_tests();
        self.tell_sums();
        for large in reach::LARGE {
            println!("covered: {large:?}: {}", self.times(|event| event == Event::Large(large)));
        }
    }

    /// Short block moves by the number of their words, with the distance that came least often.
    fn tell_moves(&self) {
        let mut short: BTreeMap<u64, Vec<u64>> = BTreeMap::new();
        for event in reach::of_moves() {
            let times = self.times(|other| other == event);
            match event {
                Event::Moved(Moved::Short { words, .. }) => {
                    short.entry(words).or_default().push(times)
                }
                _ => println!("covered: {event:?}: {times}"),
            }
        }
        for (words, times) in short {
            let (sum, least) = (times.iter().sum::<u64>(), times.iter().min().unwrap_or(&0));
            println!("covered: Short({words} words): {sum}, each distance {least} times or more");
        }
    }

    fn tell_tests(&self) {
        for wanted in reach::TESTS {
            let [equal, unequal] = [true, false].map(|way| {
                self.times(|event| match event {
                    Event::Tested { equal, test, .. } => equal == way && test == wanted,
                    _ => false,
                })
            });
            println!("covered: Tested({wanted:?}): equal {equal}, unequal {unequal}");
        }
        let [only, other] = [true, false].map(|equal| {
            self.times(|event| match event {
                Event::Tested { test: Test::OnlyNamed, .. } => equal,
                Event::Tested { test: Test::Other(_), .. } => !equal,
                _ => false,
            })
        });
        println!("covered: Tested(OnlyNamed): equal {only}; Tested(Other): unequal {other}");
    }

    /// Address sums by what they have about them, for ADD and for SUB of all addresses together.
    fn tell_sums(&self) {
        let mut listed: BTreeSet<(bool, Sum)> = BTreeSet::new();
        for event in reach::of_address_sums() {
            match event {
                Event::Summed { done, sum, .. } => {
                    listed.insert((done, sum));
                }
                _ => println!("covered: {event:?}: {}", self.times(|other| other == event)),
            }
        }
        for wanted in listed {
            let [add, sub] = reach::SUMS.map(|kind| {
                self.times(|event| match event {
                    Event::Summed { change, done, sum, .. } => {
                        change == kind && (done, sum) == wanted
                    }
                    _ => false,
                })
            });
            let (done, sum) = wanted;
            let end = if done { "done" } else { "refused" };
            println!("covered: Summed({sum:?}), {end}: ADD {add}, SUB {sub}");
        }
    }

    /// Requires all that sessions drawn by chance can come to.
    pub fn require_all(&self, count: u64, verdict: &mut Verdict) {
        for event in reach::all() {
            let seen = self.events.get(&event).copied().unwrap_or(0);
            verdict.require(format!("{event:?}"), seen, often_enough(count));
        }
    }

    /// Requires every built code, and as many orders with codes that are not as there are such.
    pub fn require_codes(&self, verdict: &mut Verdict) {
        for built in BUILT {
            let seen = self.times(|event| match event {
                Event::Completed { code, .. } | Event::OrderRefused { code, .. } => {
                    code == built.code
                }
                _ => false,
            });
            let codes = match built.second {
                Second::Any => 1_000,
                Second::AnyBut000 => 999,
                Second::Just(_) => 1,
            };
            verdict.require(built.name, seen, codes * codes::RUNS);
            self.require_done(built, verdict);
        }
        let not_built =
            self.times(|event| matches!(event, Event::Refused { reason: Reason::NotBuilt, .. }));
        verdict.require("codes that are not built", not_built, codes::NOT_BUILT * codes::RUNS);
    }

    /// Block moves are really done, and of address tests both ends.
    fn require_done(&self, built: Built, verdict: &mut Verdict) {
        let (ways, least) = match built.code {
            Code::Move => (vec![Way::On], codes::MOVED),
            Code::TrAddress(_) => (vec![Way::On, Way::ToC], codes::EITHER_WAY),
            _ => return,
        };
        for wanted in ways {
            let done = self.times(|event| match event {
                Event::Completed { code, way, .. } => code == built.code && way == wanted,
                _ => false,
            });
            verdict.require(format!("{} done, {wanted:?}", built.name), done, least);
        }
    }

    pub fn tell_makings(&self) {
        for (seen, times) in &self.makings {
            println!("covered: {seen:?}: {times}");
        }
    }

    pub fn require_makings(&self, count: u64, verdict: &mut Verdict) {
        for seen in makes::reachable() {
            let times = self.makings.get(&seen).copied().unwrap_or(0);
            verdict.require(format!("{seen:?}"), times, often_enough(count));
        }
    }

    /// Completions in plain mode, traced mode with tracing off, and with a trace card; refusals by
    /// stop number.
    fn of_code(&self, wanted: Code) -> String {
        let completed = reach::TRACINGS.map(|state| {
            self.times(|event| match event {
                Event::Completed { code, tracing, .. } => code == wanted && tracing == state,
                _ => false,
            })
        });
        let [plain, off, on] = completed;
        let mut told =
            format!("completed {} (plain {plain}, tracing off {off}, on {on})", plain + off + on);
        let mut refused: BTreeMap<u64, u64> = BTreeMap::new();
        for (event, times) in &self.events {
            if let Event::OrderRefused { code, reason, .. } = event {
                if *code == wanted {
                    *refused.entry(reason.number()).or_default() += times;
                }
            }
        }
        for (number, times) in refused {
            told += &format!(", refused {number}: {times}");
        }
        told
    }
}

/// An event that the list of reachable ones lacks shows that the list is wrong.
#[cfg(test)]
pub fn unlisted(coverage: &Coverage) -> Vec<Event> {
    let listed = reach::all();
    coverage.events.keys().filter(|event| !listed.contains(event)).copied().collect()
}

#[cfg(test)]
pub fn missing(coverage: &Coverage) -> Vec<Event> {
    reach::all().into_iter().filter(|event| !coverage.events.contains_key(event)).collect()
}
