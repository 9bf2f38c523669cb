//! Traced mode: the trace card, its place among the checks, and the tracing orders.

use super::{Job, START};
use crate::model::state::State;

#[test]
fn the_six_words() {
    let mut job = Job::traced().with(101, &["-1199200299"]).with_counts([1, 2, 3]);
    job = job.with(0, &["-0000000000"]).with(200, &["+1000000050"]).with(202, &["+2000000050"]);
    let ended = job.run(1);
    let due = "X0001101-1199200299-1200202302+0001002003+1000000050+2000000050-0000000000007";
    assert_eq!((ended.reason.number(), job.written(ended)), (2, due));
    assert_eq!((job.state.counter, job.word(302)), (1, "+3000000050".to_string()));
}

#[test]
fn words_of_a_and_b() {
    // A of 000 gives plus zero, B of 000 gives cell 000, unmarked cells give plus zero.
    let mut job =
        Job::traced().with(0, &["-0000000000"]).with(101, &["+9000000005", "+9005500600"]);
    let ended = job.run(2);
    assert_eq!((ended.reason.number(), ended.count, ended.written), (21, 1, 154));
    let cards = job.written(ended);
    assert_eq!(&cards[41..52], "+0000000000");
    assert_eq!(&cards[52..63], "-0000000000");
    assert_eq!(&cards[77 + 41..77 + 52], "-0000000000");
    assert_eq!(&cards[77 + 52..77 + 63], "+0000000000");
    assert_eq!((job.state.counter, job.location()), (2, 102));
}

#[test]
fn which_refusals_come_before_the_card() {
    let refused = |job: Job, room: usize| {
        let mut job = job.with_room(room);
        let ended = job.run(1);
        (ended.reason.number(), ended.written, job.state.counter)
    };
    let job = |order: &str| Job::traced().with(101, &[order]);
    assert_eq!(refused(Job::traced(), 100), (21, 0, 0));
    assert_eq!(refused(job("-0454000999").with_counts([0, 0, 1]), 0), (20, 0, 0));
    assert_eq!(refused(job("+0401000000"), 76), (22, 0, 0));
    assert_eq!(refused(job("+0401000000"), 77), (23, 77, 1));
    assert_eq!(refused(job("+6000000000"), 76), (22, 0, 0));
    assert_eq!(refused(job("+6000000000"), 77), (20, 77, 1));
    assert_eq!(refused(job("+9001000200"), 77), (20, 77, 1));
    assert_eq!(refused(job("+9001200200"), 77), (21, 77, 1));
    assert_eq!(refused(job("+0204000000"), 77), (20, 77, 1));
    assert_eq!(refused(job("+1200200200"), 77), (21, 77, 1));
}

#[test]
fn pch_is_noop_in_traced_mode_even_with_tracing_off() {
    let mut job = Job::traced().with(101, &["+0410000000", "+0451000000", "+0410005004"]);
    let ended = job.run(3);
    assert_eq!((ended.reason.number(), ended.count, ended.written), (2, 3, 154));
    assert_eq!((job.state.counter, job.state.tracing), (2, 0));
}

#[test]
fn tracing_turns_with_the_next_order() {
    let program =
        ["+0451000000", "+0454000000", "+0450000000", "+0454000000", "+0451000000", "-0452111222"];
    let mut job = Job::traced().with(101, &program);
    let ended = job.run(6);
    assert_eq!((ended.reason.number(), ended.count, ended.written / 77), (2, 6, 3));
    assert_eq!((job.word(106), job.state.tracing), ("+0454000000".to_string(), 1));
    let mut plain = Job::new().with(101, &["+0450000000", "-0451001000"]).with_counts([1, 0, 0]);
    assert_eq!((plain.refused(2), plain.state.tracing), ((2, 2), 0));
    assert_eq!(plain.word(102), "+0454000000");
}

#[test]
fn a_load_chooses_the_mode() {
    let mut job = Job::new();
    assert_eq!(job.load(true), (0, 0));
    assert_eq!(job.state, State { mode: 1, tracing: 1, ..START });
    job.state.counter = 9_999;
    job.put(101, "+0000000000");
    let ended = job.run(1);
    assert_eq!(&job.written(ended)[..8], "X0000101");
}
