//! Differential testing of whole sessions: load, run and make.

mod bench;
mod coverage;
mod digest;
mod draw;
mod judge;
mod makes;
mod message;
mod reach;
mod rules;
mod twin;

use crate::chance::Chance;
use crate::files::{Reading, Writing};
use bench::Bench;
use message::Message;

pub use judge::judge;

/// Marks the numbers of twins apart from all streams of the same seed.
const TWIN: u64 = 4;

fn twin_of(session: &[Message], seed: u64, index: u64) -> Vec<Message> {
    twin::twin(session, &mut Chance::of_case(seed, TWIN, index))
}

/// Where sessions come from.
#[derive(Clone, Copy)]
pub enum Stream {
    /// All of chance, without end.
    Drawn,
    /// One for each first four digits of an order.
    Codes,
    /// A deck made of a drum and loaded on another, without end.
    Makes,
}

impl Stream {
    pub fn name(self) -> &'static str {
        match self {
            Stream::Drawn => "sessions",
            Stream::Codes => "codes",
            Stream::Makes => "makes",
        }
    }

    /// The session of an index, ended but not yet with its twin.
    fn session(self, seed: u64, index: u64) -> Vec<Message> {
        match self {
            Stream::Drawn => makes::kept(draw::session(seed, index), seed, index),
            Stream::Codes => draw::codes::session(seed, index),
            Stream::Makes => makes::session(seed, index),
        }
    }
}

/// Every session is followed by its twin.
pub fn write(stream: Stream, seed: u64, count: u64, path: &str) {
    let mut out = Writing::create(path);
    for index in 0..count {
        let session = stream.session(seed, index);
        let twin = twin_of(&session, seed, index);
        for message in session.iter().chain(&twin) {
            message.write(&mut out);
        }
    }
    Message::EndOfStream.write(&mut out);
    out.finish();
}

/// The model in the place of the driver.
pub fn answer_all(cases: &str, answers: &str) {
    let mut input = Reading::open(cases);
    let mut out = Writing::create(answers);
    let mut bench = Bench::default();
    loop {
        let message = Message::read(&mut input).expect("a whole message");
        if message == Message::EndOfStream {
            break;
        }
        if let Some(outcome) = bench.feed(&message, &mut |_| {}) {
            out.numbers(&bench.answer(&outcome));
        }
    }
    assert!(input.at_end(), "the stream goes on after its end");
    out.finish();
}

#[cfg(test)]
mod tests {
    use super::*;
    use coverage::{missing, unlisted, Coverage};

    fn covered(seed: u64, count: u64) -> Coverage {
        let mut coverage = Coverage::default();
        for index in 0..count {
            let mut bench = Bench::default();
            for message in draw::session(seed, index) {
                bench.feed(&message, &mut |event| coverage.saw(event));
            }
        }
        coverage
    }

    #[test]
    fn sessions_reach_all_that_is_listed_and_nothing_else() {
        for seed in 1..4 {
            let coverage = covered(seed, 1_000);
            assert_eq!(unlisted(&coverage), []);
            assert_eq!(missing(&coverage), []);
        }
    }
}
