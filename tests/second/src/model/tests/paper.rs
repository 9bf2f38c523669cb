//! The paper's own session, and P11 to P13 of its table (P1 to P10 stand beside the operations).

use super::{Job, START};
use crate::model::calls::Ended;
use crate::model::state::State;
use crate::model::stop::Reason;
use crate::model::word::Word;

const DECK: &str = "30001101+1200201202+0410202202+0000202000007\
                    20002200+1000000050+2000000050007\
                    T101007";

#[test]
fn the_session_of_the_paper() {
    let mut job = Job::new().with_deck(DECK);
    assert_eq!(job.load(false), (0, 0));
    assert_eq!(job.state, State { reader: DECK.len() as u64, ..START });
    let ended = job.run(999_999);
    let shown = Word::plus(3_000_000_050);
    assert_eq!(ended, Ended { reason: Reason::UncStop, place: 0, count: 3, shown, written: 22 });
    assert_eq!(job.written(ended), "10001202+3000000050007");
    assert_eq!(job.location(), 103);
    assert_eq!(
        (job.word(202), job.word(0)),
        ("+3000000050".to_string(), "+3000000050".to_string())
    );
    // Z 00 0103 000003 +3000000050 is what the program around it makes of this.
    assert_eq!(job.run(1), Ended { written: 0, count: 1, ..ended });
}

#[test]
fn the_session_with_a_budget_of_two() {
    let mut job = Job::new().with_deck(DECK);
    job.load(false);
    let ended = job.run(2);
    assert_eq!(
        (ended.reason.number(), ended.count, ended.shown.cell(), job.location()),
        (2, 2, 0, 103)
    );
    assert_eq!(job.run(1).reason.number(), 0);
}

#[test]
fn p11_loop_with_b_000() {
    let mut job = Job::new().with(101, &["+0100000500"]).with_counts([4, 5, 6]);
    assert_eq!(job.refused(1), (2, 1));
    assert_eq!(job.at(), (102, [0, 0, 0]));
}

#[test]
fn p12_tr_sgn_on_minus_zero() {
    let mut job = Job::new().with(0, &["-0000000000"]).with(101, &["+0201300400"]);
    assert_eq!(job.refused(1), (2, 1));
    assert_eq!(job.location(), 300);
    let mut job = Job::new().with(0, &["-0000000001"]).with(101, &["+0201300400"]);
    assert_eq!(job.refused(1), (2, 1));
    assert_eq!(job.location(), 400);
}

#[test]
fn p13_read_005_to_004() {
    let mut job = Job::new().with(101, &["+0400005004"]);
    assert_eq!(job.refused(1), (20, 0));
}
