//! The judge of the answers to whole sessions.

use super::bench::{told, Bench, Call, Outcome};
use super::coverage::Coverage;
use super::makes;
use super::message::Message;
use super::rules::Rules;
use super::{twin_of, Stream};
use crate::files::Reading;
use crate::verdict::Verdict;

/// Of one answer, so many differing numbers are told.
const TOLD: usize = 8;

/// One call of a session: its answer by the model and the answer that was read.
pub struct Answered {
    /// The place of its message in the session.
    message: usize,
    call: Call,
    pub due: Vec<u64>,
    got: Vec<u64>,
}

impl Answered {
    /// Everything but the digest of the drum, which is the last but one.
    fn without_drum(answer: &[u64]) -> (&[u64], u64) {
        let drum = answer.len() - 2;
        (&answer[..drum], answer[drum + 1])
    }
}

/// Whether every answer is the model's, twins agree, and everything that can be reached was.
pub fn judge(stream: Stream, seed: u64, count: u64, path: &str) -> bool {
    let mut answers = Reading::open(path);
    let mut verdict = Verdict::new();
    let mut coverage = Coverage::default();
    let mut rules = Rules::default();
    let (mut twins, mut calls) = (0u64, 0u64);
    for index in 0..count {
        let first = stream.session(seed, index);
        let second = twin_of(&first, seed, index);
        let watched = |bench: &mut Bench, asked: &Message| {
            rules.feed(bench, asked, &mut |event| coverage.saw(event))
        };
        let unwatched = |bench: &mut Bench, asked: &Message| bench.feed(asked, &mut |_| {});
        let both = answered(&first, &mut answers, watched)
            .and_then(|one| Some((one, answered(&second, &mut answers, unwatched)?)));
        let Some((one, other)) = both else {
            verdict
                .difference(|| format!("session {index}: the answers end within it or its twin"));
            break;
        };
        compare(&format!("session {index}"), &one, &first, &mut verdict);
        compare(&format!("twin of session {index}"), &other, &second, &mut verdict);
        compare_twins(index, &one, &other, &mut verdict);
        if rules.broken() {
            verdict.difference(|| {
                format!("session {index}: by the old rule a run is other in which no sum carries")
            });
        }
        if let Stream::Makes = stream {
            makes::seen(&first, one[0].due[0] == 0, &mut |seen| coverage.saw_making(seen));
            for (name, session, calls) in [("", &first, &one), ("twin of ", &second, &other)] {
                if !makes::brings_back(session, calls) {
                    verdict.difference(|| {
                        format!("{name}session {index}: the deck does not bring its drum back")
                    });
                }
            }
        }
        for Answered { call, due, .. } in &one {
            if *call == Call::Run || *call == Call::Load && due[0] != 0 {
                coverage.ended(due[0]);
            }
        }
        twins += 1;
        calls += one.len() as u64;
    }
    verdict.end_of_answers(answers.at_end());
    match stream {
        Stream::Makes => coverage.tell_makings(),
        _ => coverage.tell(),
    }
    println!("covered: {calls} calls, {twins} twins");
    rules.tell();
    match stream {
        Stream::Drawn => {
            coverage.require_all(count, &mut verdict);
            rules.require(count, &mut verdict);
        }
        Stream::Codes => coverage.require_codes(&mut verdict),
        Stream::Makes => coverage.require_makings(count, &mut verdict),
    }
    verdict.close(stream.name(), count, "sessions", seed)
}

/// Does a session on the model and reads as much for each call as the model answers.
fn answered(
    session: &[Message],
    answers: &mut Reading,
    mut feed: impl FnMut(&mut Bench, &Message) -> Option<Outcome>,
) -> Option<Vec<Answered>> {
    let mut bench = Bench::default();
    let mut all = Vec::new();
    for (message, asked) in session.iter().enumerate() {
        let Some(outcome) = feed(&mut bench, asked) else { continue };
        let (due, call) = (bench.answer(&outcome), outcome.call());
        let got = answers.many(due.len() as u64)?;
        all.push(Answered { message, call, due, got });
    }
    Some(all)
}

fn compare(name: &str, calls: &[Answered], session: &[Message], verdict: &mut Verdict) {
    for Answered { message, call, due, got } in calls {
        if due == got {
            continue;
        }
        verdict.difference(|| {
            let differing: Vec<String> = (0..due.len())
                .filter(|&i| due[i] != got[i])
                .take(TOLD)
                .map(|i| {
                    let ((what, model), (_, answer)) = (told(*call, i, due), told(*call, i, got));
                    format!("{what}: model {model}, answer {answer}")
                })
                .collect();
            format!("{name}, message {message} ({:?}): {}", session[*message], differing.join("; "))
        });
        // What follows in this session may only be a consequence.
        return;
    }
}

/// Both the answers that were read and the model's own must not tell the twins apart.
fn compare_twins(index: u64, one: &[Answered], other: &[Answered], verdict: &mut Verdict) {
    for (x, y) in one.iter().zip(other) {
        if Answered::without_drum(&x.got) != Answered::without_drum(&y.got) {
            verdict.difference(|| {
                format!("session {index} and its twin answer message {} differently", x.message)
            });
            return;
        }
        if Answered::without_drum(&x.due) != Answered::without_drum(&y.due) {
            verdict.difference(|| {
                format!("the model tells session {index} from its twin at message {}", x.message)
            });
            return;
        }
    }
}
