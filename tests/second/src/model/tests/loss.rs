//! Sums that lose their digits, with the switch on STOP and on RUN.

use super::Job;
use crate::model::calls::Ended;

/// An order at 101 on the numbers at 200 and 201, and behind it a stop that shows cell 202.
fn job(order: &str, a: &str, b: &str) -> Job {
    Job::new().with(101, &[order, "+0000202000"]).with(200, &[a, b])
}

const ONE: &str = "+1000000050";
const SIX_GONE: [&str; 2] = ["+1234567850", "+1234560050"];

/// Number, count, and the word shown.
fn told(ended: Ended) -> (u64, u64, String) {
    (ended.reason.number(), ended.count, ended.shown.text())
}

fn tells(number: u64, count: u64, shown: &str) -> (u64, u64, String) {
    (number, count, shown.to_string())
}

#[test]
fn the_result_is_stored_and_shown_and_the_next_order_follows() {
    let mut job = job("+2200201202", SIX_GONE[0], SIX_GONE[1]);
    assert_eq!(told(job.run_with(5, true)), tells(3, 1, "+7800000044"));
    assert_eq!(job.location(), 102);
    assert_eq!((job.word(202), job.word(0)), ("+7800000044".into(), "+7800000044".into()));
    assert_eq!(told(job.run_with(5, true)), tells(0, 1, "+7800000044"));
}

#[test]
fn the_last_order_of_the_budget_stops_with_03() {
    let mut job = job("+1200201000", "-9990000049", ONE);
    assert_eq!(told(job.run_with(1, true)), tells(3, 1, "+1000000047"));
    assert_eq!((job.location(), job.word(0)), (102, "+1000000047".into()));
    assert_eq!(job.marks[202], 0);
}

#[test]
fn two_digits_are_borne_and_so_is_a_zero() {
    let mut two = job("+2201200202", ONE, "+9900000049");
    assert_eq!(told(two.run_with(5, true)), tells(0, 2, "-1000000048"));
    let mut none = job("+2200201202", ONE, ONE);
    assert_eq!(told(none.run_with(5, true)), tells(0, 2, "+0000000000"));
    let mut product = job("+3200201202", "+1000000040", "+1000000040");
    assert_eq!(told(product.run_with(5, true)), tells(0, 2, "+1000000030"));
}

#[test]
fn on_run_nothing_stops() {
    let mut job = job("+2200201202", SIX_GONE[0], SIX_GONE[1]);
    assert_eq!(told(job.run(5)), tells(0, 2, "+7800000044"));
}

#[test]
fn the_range_comes_first() {
    let mut job = job("+2200201202", "+1234567805", "+1234560005");
    assert_eq!(told(job.run_with(5, true)), tells(27, 0, "+0000000000"));
    assert_eq!((job.location(), job.marks[202]), (101, 0));
    job.put(200, "+1234567806");
    job.put(201, "+1234560006");
    assert_eq!(told(job.run_with(5, true)), tells(3, 1, "+7800000000"));
}

#[test]
fn behind_999_and_over_the_order_itself() {
    let mut job = Job::new().with(999, &["+2200201999"]).with(200, &SIX_GONE);
    job.state.location = 999;
    assert_eq!(told(job.run_with(5, true)), tells(3, 1, "+7800000044"));
    assert_eq!((job.location(), job.word(999)), (1_000, "+7800000044".into()));
    assert_eq!(job.refused(1), (20, 0));
}

#[test]
fn a_traced_run_stops_behind_its_trace_card() {
    let mut job = Job::traced().with(101, &["-2199200202"]).with_counts([1, 1, 0]);
    job = job.with(200, &SIX_GONE);
    let ended = job.run_with(5, true);
    assert_eq!(told(ended), tells(3, 1, "+7800000044"));
    let card = "X0001101-2199200202-2200201202+0001001000+1234567850+1234560050+0000000000007";
    assert_eq!((job.written(ended), job.at()), (card, (102, [1, 1, 0])));
}
