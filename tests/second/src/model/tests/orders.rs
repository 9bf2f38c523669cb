//! Single orders, their refusals and the order of their checks.

use super::Job;

/// Number and count of a run of one order at 101.
pub fn one(job: &mut Job) -> (u64, u64) {
    let before = (job.cells.clone(), job.marks.clone(), job.state);
    let answer = job.refused(1);
    if answer.0 >= 10 {
        assert_eq!(before, (job.cells.clone(), job.marks.clone(), job.state));
    }
    answer
}

#[test]
fn marks_before_numbers() {
    let job = || Job::new().with(101, &["+1200201202"]);
    assert_eq!(one(&mut job()), (21, 0));
    assert_eq!(one(&mut job().with(200, &["+0000000001"])), (21, 0));
    assert_eq!(one(&mut job().with(200, &["+0000000001", "+1000000050"])), (24, 0));
    assert_eq!(one(&mut job().with(200, &["+1000000050", "-0000000000"])), (24, 0));
    let mut good = job().with(200, &["+1000000050", "+0000000000"]);
    assert_eq!(one(&mut good), (2, 1));
    assert_eq!(
        (good.word(202), good.word(0)),
        ("+1000000050".to_string(), "+1000000050".to_string())
    );
}

#[test]
fn the_sum_makes_the_code() {
    // -0 000 000 000 with the box at (1, 500, 400) is LOOP C with B 500 and C 400.
    let mut job = Job::new().with(101, &["-0000000000"]).with_counts([1, 500, 400]);
    assert_eq!(one(&mut job), (2, 1));
    assert_eq!(job.at(), (400, [1, 500, 401]));
    // -0 400 is READ, and with a count of 1 CONS, which is not built.
    let mut job = Job::new().with(101, &["-0400200300"]).with_counts([1, 0, 0]);
    assert_eq!(one(&mut job), (23, 0));
    let mut job = Job::new().with(101, &["-0454000999"]).with_counts([0, 0, 1]);
    assert_eq!(one(&mut job), (20, 0));
}

#[test]
fn loop_orders_compare_the_largest_named_count() {
    let mut job = Job::new().with(101, &["+0110007050"]).with_counts([2, 5, 900]);
    assert_eq!(one(&mut job), (2, 1));
    assert_eq!(job.at(), (50, [3, 6, 900]));
    let mut job = Job::new().with(101, &["+0110006050"]).with_counts([2, 5, 900]);
    assert_eq!(one(&mut job), (2, 1));
    assert_eq!(job.at(), (102, [0, 0, 0]));
    let mut job = Job::new().with(101, &["+0001999050"]).with_counts([0, 0, 999]);
    assert_eq!(one(&mut job), (2, 1));
    assert_eq!(job.at(), (102, [0, 0, 0]));
}

#[test]
fn transfers_to_nowhere_are_done_and_then_refused() {
    let mut job = Job::new().with(101, &["+0203000000"]);
    assert_eq!((job.refused(2), job.location()), ((20, 1), 0));
    let mut job = Job::new().with(999, &["+0454000000"]);
    job.state.location = 999;
    assert_eq!((job.refused(2), job.location()), ((20, 1), 1_000));
}

#[test]
fn tr_exp_takes_three_digits_of_b() {
    let job = |order: &str| Job::new().with(0, &["-0000000099"]).with(101, &[order]);
    for (order, location) in [("+0202099500", 500), ("+0202100500", 102), ("+0202000500", 500)] {
        let mut job = job(order);
        assert_eq!((one(&mut job), job.location()), ((2, 1), location));
    }
}

#[test]
fn tr_subr_changes_the_order_it_enters() {
    let mut job = Job::new().with(101, &["+0204680900"]).with(900, &["-0005935111"]);
    assert_eq!((one(&mut job), job.location()), ((2, 1), 900));
    assert_eq!(job.word(900), "+0005935680");
    assert_eq!(one(&mut Job::new().with(101, &["+0204680000"])), (20, 0));
    assert_eq!(one(&mut Job::new().with(101, &["+0204680900"])), (21, 0));
}

#[test]
fn address_orders() {
    let changed = |order: &str| {
        let mut job = Job::new().with(101, &[order]).with(300, &["-9123003789"]);
        assert_eq!((one(&mut job), job.location()), ((2, 1), 102));
        job.word(300)
    };
    assert_eq!(changed("+0500300007"), "-9007003789");
    assert_eq!(changed("+0050300007"), "-9123007789");
    assert_eq!(changed("+0005300007"), "-9123003007");
    assert_eq!(changed("+0600300876"), "-9999003789");
    assert_eq!(changed("+0060300005"), "-9123008789");
    assert_eq!(changed("+0006300300"), "-9123004089");
    assert_eq!(changed("+0700300124"), "-8999003789");
    assert_eq!(changed("+0070300005"), "-9122998789");
    assert_eq!(changed("+0007300789"), "-9123003000");
    assert_eq!(one(&mut Job::new().with(101, &["+0500000007"])), (20, 0));
    assert_eq!(one(&mut Job::new().with(101, &["+0500300007"])), (21, 0));
}

#[test]
fn stops() {
    let mut job = Job::new().with(101, &["+0200300500"]).with(300, &["-0000000000"]);
    let ended = job.run_with(1, true);
    assert_eq!(
        (ended.reason.number(), ended.count, ended.shown.cell(), job.location()),
        (1, 1, 10_000_000_000, 500)
    );
    let mut job = Job::new().with(101, &["+0200300500"]);
    let ended = job.run_with(1, true);
    assert_eq!(
        (ended.reason.number(), ended.count, ended.shown.cell(), job.location()),
        (1, 1, 0, 500)
    );
    let mut job = Job::new().with(101, &["+0200300500"]);
    assert_eq!((one(&mut job), job.location()), ((2, 1), 500));
    let mut job = Job::new().with(101, &["+0000000000"]).with(0, &["-1234567890"]);
    let ended = job.run(5);
    assert_eq!(
        (ended.reason.number(), ended.count, ended.shown.cell(), job.location()),
        (0, 1, 11_234_567_890, 101)
    );
}

#[test]
fn pch_numbers_its_cards_and_fits_all_or_none() {
    let words =
        ["+0000000001", "-0000000002", "+0000000003", "+0000000004", "+0000000005", "+0000000006"];
    let job = |room| {
        let mut job = Job::new().with(101, &["+0410200205"]).with(200, &words).with_room(room);
        job.state.counter = 9_998;
        job
    };
    assert_eq!(one(&mut job(87)), (22, 0));
    let mut good = job(88);
    let ended = good.run(1);
    let due =
        "59999200+0000000001-0000000002+0000000003+0000000004+000000000500710000205+0000000006007";
    assert_eq!((ended.reason.number(), good.written(ended), good.state.counter), (2, due, 0));
    assert_eq!(one(&mut Job::new().with(101, &["+0410000205"])), (20, 0));
    assert_eq!(one(&mut Job::new().with(101, &["+0410200199"])), (20, 0));
    assert_eq!(one(&mut Job::new().with(101, &["+0410200200"]).with_room(0)), (21, 0));
}

#[test]
fn read_takes_all_cards_or_none() {
    let cards = "20000300+0000000001-000000000200010000302+0000000003000";
    let run = |order: &str, cards: &str| {
        let mut job = Job::new().with_deck(&format!("T101007{cards}")).with(101, &[order]);
        (one(&mut job), job)
    };
    let (answer, job) = run("+0400300302", cards);
    assert_eq!((answer, job.state.reader), ((2, 1), 62));
    assert_eq!(
        (job.word(301), job.word(302)),
        ("-0000000002".to_string(), "+0000000003".to_string())
    );
    assert_eq!(run("+0400300301", cards).1.state.reader, 40);
    assert_eq!(run("+0400300300", cards).0, (28, 0));
    assert_eq!(run("+0400301302", cards).0, (28, 0));
    assert_eq!(run("+0400300303", cards).0, (29, 0));
    assert_eq!(run("+0400300303", "").0, (29, 0));
    assert_eq!(run("+0400300304", &format!("{cards}{cards}")).0, (28, 0));
    assert_eq!(run("+0400999999", "10000999+0000000001000").0, (2, 1));
}
