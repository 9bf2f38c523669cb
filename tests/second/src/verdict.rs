//! What a judge says: the first differences, what was covered, and one last line.

/// How many differences are told in full.
const TOLD: u64 = 10;

/// How often, in a stream of so many cases, each thing must be seen that can be reached at all.
pub fn often_enough(count: u64) -> u64 {
    (count / 2_000).max(1)
}

pub struct Verdict {
    differences: u64,
    /// Things that can be reached and were not.
    missing: u64,
}

impl Verdict {
    pub fn new() -> Verdict {
        Verdict { differences: 0, missing: 0 }
    }

    pub fn difference(&mut self, tell: impl FnOnce() -> String) {
        self.differences += 1;
        if self.differences <= TOLD {
            println!("difference: {}", tell());
        }
    }

    /// Every case of a coverage table must have been seen, and so often.
    pub fn require(&mut self, what: impl std::fmt::Display, seen: u64, least: u64) {
        if seen < least {
            self.missing += 1;
            println!("not covered: {what}: {seen}, at least {least} due");
        }
    }

    /// An answer file that is too long is a difference as well; one that is too short was told
    /// where it ended.
    pub fn end_of_answers(&mut self, at_end: bool) {
        if !at_end {
            self.difference(|| "the answers go on after the last case".to_string());
        }
    }

    /// The last line, and whether all is well.
    pub fn close(self, kind: &str, count: u64, things: &str, seed: u64) -> bool {
        println!("{kind}: {count} {things}, {} differences, seed {seed}", self.differences);
        self.differences == 0 && self.missing == 0
    }
}
