//! ADD and SUB of an address: what goes on into the digits before it.

use super::orders::one;
use super::{Job, START};
use crate::model::order::Sums;
use crate::model::state::State;

/// An order at 101, and a word at 300.
fn job(order: &str, word: &str) -> Job {
    Job::new().with(101, &[order]).with(300, &[word])
}

/// What a sum at 101 leaves at 300.
fn sum(order: &str, word: &str) -> String {
    let mut job = job(order, word);
    assert_eq!((one(&mut job), job.location()), ((2, 1), 102), "{order} on {word}");
    assert_eq!(job.state, State { location: 102, ..START });
    job.word(300)
}

/// The number that refuses a sum.
fn refused(order: &str, word: &str) -> u64 {
    let mut job = job(order, word);
    let (number, count) = one(&mut job);
    assert_eq!((count, job.word(300)), (0, word.to_string()), "{order} on {word}");
    number
}

/// The same job by the rule before W-205.
fn old(job: Job) -> Job {
    Job { sums: Sums::Wrap, ..job }
}

#[test]
fn a_carry_goes_as_far_as_there_are_nines() {
    assert_eq!(sum("+0006300001", "+1200201999"), "+1200202000");
    assert_eq!(sum("+0006300001", "+1200999999"), "+1201000000");
    assert_eq!(sum("+0006300001", "+1999999999"), "+2000000000");
    assert_eq!(sum("+0006300001", "+0999999999"), "+1000000000");
    assert_eq!(sum("+0060300001", "+1200999500"), "+1201000500");
    assert_eq!(sum("+0060300001", "+1999999500"), "+2000000500");
    assert_eq!(sum("+0600300001", "+1999400500"), "+2000400500");
    assert_eq!(sum("+0006300999", "-5123456789"), "-5123457788");
    assert_eq!(sum("+0060300999", "-5123456789"), "-5124455789");
    assert_eq!(sum("+0600300999", "-5123456789"), "-6122456789");
}

#[test]
fn a_borrow_goes_as_far_as_there_are_zeros() {
    assert_eq!(sum("+0007300001", "+1200202000"), "+1200201999");
    assert_eq!(sum("+0007300001", "+1201000000"), "+1200999999");
    assert_eq!(sum("+0007300001", "+2000000000"), "+1999999999");
    assert_eq!(sum("+0007300001", "+1000000000"), "+0999999999");
    assert_eq!(sum("+0070300001", "+1201000500"), "+1200999500");
    assert_eq!(sum("+0070300001", "+2000000500"), "+1999999500");
    assert_eq!(sum("+0700300001", "+2000400500"), "+1999400500");
    assert_eq!(sum("+0007300999", "-5123456789"), "-5123455790");
    assert_eq!(sum("+0070300999", "-5123456789"), "-5122457789");
    assert_eq!(sum("+0700300999", "-5123456789"), "-4124456789");
}

#[test]
fn both_ends_of_the_ten_digits() {
    for (order, last) in [
        ("+0006300001", "9999999998"),
        ("+0006300999", "9999999000"),
        ("+0060300001", "9999998999"),
        ("+0060300999", "9999000999"),
        ("+0600300001", "9998999999"),
        ("+0600300999", "9000999999"),
    ] {
        let past = format!("{:010}", last.parse::<u64>().unwrap() + 1);
        for sign in ["+", "-"] {
            assert_eq!(sum(order, &format!("{sign}{last}")), format!("{sign}9999999999"));
            assert_eq!(refused(order, &format!("{sign}{past}")), 20);
            assert_eq!(refused(order, &format!("{sign}9999999999")), 20);
        }
    }
    for (order, last) in [
        ("+0007300001", "0000000001"),
        ("+0007300999", "0000000999"),
        ("+0070300001", "0000001000"),
        ("+0070300999", "0000999000"),
        ("+0700300001", "0001000000"),
        ("+0700300999", "0999000000"),
    ] {
        let below = format!("{:010}", last.parse::<u64>().unwrap() - 1);
        for sign in ["+", "-"] {
            assert_eq!(sum(order, &format!("{sign}{last}")), format!("{sign}0000000000"));
            assert_eq!(refused(order, &format!("{sign}{below}")), 20);
            assert_eq!(refused(order, &format!("{sign}0000000000")), 20);
        }
    }
}

#[test]
fn a_constant_of_000_changes_nothing() {
    for code in ["006", "060", "600", "007", "070", "700"] {
        for word in ["+9999999999", "-9999999999", "+0000000000", "-0000000000", "-1000000050"] {
            assert_eq!(sum(&format!("+0{code}300000"), word), word);
        }
    }
}

#[test]
fn minus_zero_is_minus_all_along() {
    assert_eq!(sum("+0006300007", "-0000000000"), "-0000000007");
    assert_eq!(sum("+0600300999", "-0000000000"), "-0999000000");
    assert_eq!(sum("+0070300345", "-0000345000"), "-0000000000");
    assert_eq!(refused("+0070300001", "-0000000000"), 20);
}

#[test]
fn marks_come_before_the_ten_digits_and_b_000_before_marks() {
    for order in ["+0006300001", "+0060300001", "+0600300001"] {
        let mut unmarked = job(order, "+9999999999");
        unmarked.marks[300] = 0;
        assert_eq!(one(&mut unmarked), (21, 0));
    }
    for order in ["+0007300001", "+0070300001", "+0700300001"] {
        let mut unmarked = job(order, "-0000000000");
        unmarked.marks[300] = 0;
        assert_eq!(one(&mut unmarked), (21, 0));
    }
    for (code, word) in [("006", "+9999999999"), ("700", "+0000000000")] {
        for c in ["000", "001"] {
            let mut job = Job::new().with(0, &[word]).with(101, &[&format!("+0{code}000{c}")]);
            assert_eq!(one(&mut job), (20, 0));
        }
    }
}

#[test]
fn set_never_carries() {
    assert_eq!(sum("+0005300000", "-9999999999"), "-9999999000");
    assert_eq!(sum("+0050300000", "-9999999999"), "-9999000999");
    assert_eq!(sum("+0500300999", "+0000000000"), "+0999000000");
}

#[test]
fn an_order_that_changes_itself() {
    let itself = |order: &str, counts| {
        let mut job = Job::new().with(101, &[order]).with_counts(counts);
        (one(&mut job), job.word(101))
    };
    assert_eq!(itself("+0006101400", [0; 3]), ((2, 1), "+0006101800".to_string()));
    assert_eq!(itself("+0006101500", [0; 3]), ((2, 1), "+0006102000".to_string()));
    assert_eq!(itself("+0060101899", [0; 3]), ((2, 1), "+0061000899".to_string()));
    assert_eq!(itself("+0600101400", [0; 3]), ((2, 1), "+1000101400".to_string()));
    assert_eq!(itself("+0070101102", [0; 3]), ((2, 1), "+0069999102".to_string()));
    assert_eq!(itself("+0700101700", [0; 3]), ((2, 1), "+0000101700".to_string()));
    assert_eq!(itself("+0700101701", [0; 3]), ((20, 0), "+0700101701".to_string()));
    // The word is the order as stored, and C that of the order as done.
    assert_eq!(itself("-0007100005", [0, 1, 3]), ((2, 1), "-0007099997".to_string()));
    assert_eq!(itself("-0000000005", [7, 101, 3]), ((20, 0), "-0000000005".to_string()));
    assert_eq!(itself("-0000000005", [6, 101, 3]), ((2, 1), "-0000000013".to_string()));
}

#[test]
fn the_next_order_is_done_with_its_new_code() {
    // TR C of 999 becomes MOVE 000 of cell 000, and MOVE 000 becomes TR C of 400.
    let mut up = Job::new().with(0, &["-1234567890"]).with(101, &["+0006102500", "+8999999900"]);
    assert_eq!((up.refused(2), up.location()), ((2, 2), 103));
    assert_eq!((up.word(102), up.word(400)), ("+9000000400".into(), "-1234567890".into()));
    let mut down = Job::new().with(101, &["+0700102600", "+9000123200"]);
    down = down.with(400, &["+1234567890"]);
    assert_eq!((down.refused(2), down.location()), ((2, 2), 200));
    assert_eq!(down.word(102), "+8400123200");
}

#[test]
fn the_box_makes_the_order_and_not_the_word() {
    let mut sum = Job::new().with(101, &["-0006299001"]).with_counts([0, 1, 2]);
    sum = sum.with(300, &["-0000000998"]);
    assert_eq!((one(&mut sum), sum.word(300)), ((2, 1), "-0000001001".to_string()));
    let mut past = Job::new().with(101, &["-0006299001"]).with_counts([0, 1, 2]);
    past = past.with(300, &["-9999999997"]);
    assert_eq!(one(&mut past), (20, 0));
    let mut last = Job::new().with(101, &["-0006299001"]).with_counts([0, 1, 2]);
    last = last.with(300, &["-9999999996"]);
    assert_eq!((one(&mut last), last.word(300)), ((2, 1), "-9999999999".to_string()));
}

#[test]
fn both_ends_of_the_drum() {
    let at_999 = |word: &str| {
        let mut job = Job::new().with(999, &["+0060300001"]).with(300, &[word]);
        job.state.location = 999;
        (one(&mut job), job.location(), job.word(300))
    };
    assert_eq!(at_999("-0000999000"), ((2, 1), 1_000, "-0001000000".to_string()));
    assert_eq!(at_999("-9999999000"), ((20, 0), 999, "-9999999000".to_string()));
    let mut last = Job::new().with(101, &["+0007999001"]).with(999, &["+0400000000"]);
    assert_eq!((one(&mut last), last.word(999)), ((2, 1), "+0399999999".to_string()));
}

#[test]
fn a_refused_sum_leaves_its_trace_card_and_the_count_of_it() {
    let mut on = Job::traced().with(101, &["+0454000000", "+0006300001"]);
    on = on.with(300, &["-9999999999"]);
    let ended = on.run(2);
    let card = "X0002102+0006300001+0006300001+0000000000+0000000000-9999999999+0000000000007";
    assert_eq!((ended.reason.number(), ended.count, ended.written), (20, 1, 154));
    assert_eq!(&on.written(ended)[77..], card);
    assert_eq!(on.state, State { location: 102, counter: 2, mode: 1, tracing: 1, ..START });
    assert_eq!(on.word(300), "-9999999999");
    let mut off = Job::traced().with(101, &["+0007300001"]).with(300, &["+0000000000"]);
    off.state.tracing = 0;
    let ended = off.run(5);
    assert_eq!((ended.reason.number(), ended.count, ended.written), (20, 0, 0));
    assert_eq!(off.state, State { mode: 1, ..START });
}

#[test]
fn by_the_old_rule_an_address_keeps_to_itself() {
    let by_both = |order: &str, word: &str| {
        let (mut new, mut old) = (job(order, word), old(job(order, word)));
        assert_eq!((one(&mut new), one(&mut old)), ((2, 1), (2, 1)), "{order} on {word}");
        assert_eq!((new.state, &new.marks), (old.state, &old.marks));
        (new.word(300), old.word(300))
    };
    for (order, word) in [
        ("+0006300001", "+1200201998"),
        ("+0060300998", "-9999001999"),
        ("+0600300999", "-9000999999"),
        ("+0007300999", "-0000000999"),
        ("+0070300001", "+0000001000"),
        ("+0700300000", "-0000000000"),
        ("+0500300007", "-9999999999"),
    ] {
        let (new, old) = by_both(order, word);
        assert_eq!(new, old, "{order} on {word}");
    }
    assert_eq!(
        by_both("+0006300001", "+1200201999"),
        ("+1200202000".to_string(), "+1200201000".to_string())
    );
    assert_eq!(
        by_both("+0070300005", "-1200003000"),
        ("-1199998000".to_string(), "-1200998000".to_string())
    );
    let mut past = old(job("+0600300001", "-9999000000"));
    assert_eq!((one(&mut past), past.word(300)), ((2, 1), "-9000000000".to_string()));
    let mut below = old(job("+0700300001", "-0000000000"));
    assert_eq!((one(&mut below), below.word(300)), ((2, 1), "-0999000000".to_string()));
}
