//! Runs by the rule of address sums before W-205 beside those by the rule of today: as long as each
//! address and its C stay in 000 to 999, they are the same.

use super::bench::{Bench, Outcome};
use super::message::Message;
use crate::model::event::Event;
use crate::model::order::Sums;
use crate::verdict::{often_enough, Verdict};

/// Runs with address sums; `passed`: one of these passes 999 or falls below 000.
#[derive(Default)]
pub struct Rules {
    within: u64,
    passed: u64,
    /// Of those that passed, the ones that differ by the old rule.
    differ: u64,
    /// One that must not differ does.
    broken: bool,
}

impl Rules {
    /// Does what a message asks, and a run with address sums by the old rule as well.
    pub fn feed(
        &mut self,
        bench: &mut Bench,
        asked: &Message,
        witness: &mut dyn FnMut(Event),
    ) -> Option<Outcome> {
        let Message::Run { .. } = asked else { return bench.feed(asked, witness) };
        let mut old = bench.by(Sums::Wrap);
        let (mut sums, mut passed) = (false, false);
        let outcome = bench.feed(asked, &mut |event| {
            if let Event::SumWithin(within) = event {
                (sums, passed) = (true, passed || !within);
            }
            witness(event);
        });
        if sums {
            let same = old.feed(asked, &mut |_| {}) == outcome && old.lies_as(bench);
            self.count(passed, same);
        }
        outcome
    }

    fn count(&mut self, passed: bool, same: bool) {
        if passed {
            self.passed += 1;
            self.differ += !same as u64;
        } else {
            self.within += 1;
            self.broken |= !same;
        }
    }

    /// Whether, since this was asked last, a run differs that must not.
    pub fn broken(&mut self) -> bool {
        std::mem::take(&mut self.broken)
    }

    pub fn tell(&self) {
        let Rules { within, passed, differ, .. } = self;
        println!(
            "covered: runs with address sums and no carry, the same by the old rule: {within}"
        );
        println!(
            "covered: runs with a carry or a borrow: {passed}, other by the old rule: {differ}"
        );
    }

    pub fn require(&self, count: u64, verdict: &mut Verdict) {
        let least = often_enough(count);
        verdict.require("runs with address sums and no carry", self.within, least);
        verdict.require("runs that are other by the old rule", self.differ, least);
    }
}
