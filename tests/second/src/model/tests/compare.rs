//! TR A, TR B and TR C.

use super::orders::one;
use super::Job;

/// Where an order at 101 goes, with this word at 750.
fn goes(order: &str, word: &str) -> u64 {
    let mut job = Job::new().with(101, &[order]).with(750, &[word]);
    assert_eq!(one(&mut job), (2, 1), "{order}");
    job.location()
}

#[test]
fn the_example_of_the_newsletter() {
    assert_eq!(goes("+6750325200", "+1320400000"), 200);
    assert_eq!(goes("+6750325200", "+1325400000"), 102);
}

#[test]
fn each_names_its_own_address() {
    let word = "-9123456789";
    for (code, equal, others) in [(6, 123, [456, 789]), (7, 456, [123, 789]), (8, 789, [123, 456])]
    {
        assert_eq!(goes(&format!("+{code}750{equal:03}200"), word), 102);
        for other in others.into_iter().chain([equal - 1, equal + 1, 0, 999]) {
            assert_eq!(goes(&format!("+{code}750{other:03}200"), word), 200);
        }
    }
}

#[test]
fn any_word_will_do() {
    for (word, addresses) in [
        ("-0000000000", [0, 0, 0]),
        ("+0000000000", [0, 0, 0]),
        ("-0000000001", [0, 0, 1]),
        ("+0999000999", [999, 0, 999]),
        ("-9999999999", [999, 999, 999]),
    ] {
        for (code, address) in (6..).zip(addresses) {
            assert_eq!(goes(&format!("+{code}750{address:03}200"), word), 102);
            let other = (address + 1) % 1_000;
            assert_eq!(goes(&format!("+{code}750{other:03}200"), word), 200);
        }
    }
}

#[test]
fn a_000_and_cells_that_are_not_marked() {
    for code in 6..=8 {
        assert_eq!(one(&mut Job::new().with(101, &[&format!("+{code}000000200")])), (20, 0));
        assert_eq!(one(&mut Job::new().with(101, &[&format!("+{code}750000200")])), (21, 0));
    }
}

#[test]
fn going_to_000_and_past_999() {
    let mut job = Job::new().with(101, &["+6750001000"]).with(750, &["+0000000000"]);
    assert_eq!((job.refused(2), job.location()), ((20, 1), 0));
    for (b, location) in [("000", 1_000), ("001", 200)] {
        let order = format!("+7750{b}200");
        let mut job = Job::new().with(999, &[&order]).with(750, &["+1000000000"]);
        job.state.location = 999;
        assert_eq!((one(&mut job), job.location()), ((2, 1), location));
    }
}

#[test]
fn its_own_cell() {
    let goes = |order: &str, counts| {
        let mut job = Job::new().with(101, &[order]).with_counts(counts);
        assert_eq!(one(&mut job), (2, 1), "{order}");
        job.location()
    };
    assert_eq!(goes("+6101101200", [0; 3]), 102);
    assert_eq!(goes("+6101100200", [0; 3]), 200);
    assert_eq!(goes("+7101555200", [9; 3]), 102);
    assert_eq!(goes("+8101200200", [0; 3]), 102);
    assert_eq!(goes("+8101201200", [0; 3]), 200);
    // What is compared is the word as stored with the order as done.
    assert_eq!(goes("-6099097200", [2, 2, 1]), 102);
    assert_eq!(goes("-7100555200", [1, 1, 0]), 200);
    assert_eq!(goes("-8100199200", [1, 1, 7]), 102);
}

#[test]
fn the_box_adds_to_the_order_and_not_to_the_word() {
    let counts = [1, 2, 3];
    let goes = |order: &str| {
        let mut job = Job::new().with(101, &[order]).with(750, &["-1320400000"]);
        job = job.with_counts(counts);
        assert_eq!(one(&mut job), (2, 1), "{order}");
        (job.location(), job.word(750))
    };
    let word = "-1320400000".to_string();
    assert_eq!(goes("-6749318200"), (102, word.clone()));
    assert_eq!(goes("-6749319200"), (203, word.clone()));
    assert_eq!(goes("+6750321200"), (200, word.clone()));
    assert_eq!(goes("+7750402200"), (200, word.clone()));
    assert_eq!(goes("+8750000200"), (102, word));
}

#[test]
fn the_summation_of_the_newsletter() {
    let program = [
        "+0500103801",
        "+0050103901",
        "+3000000000",
        "+1000700700",
        "+0600103001",
        "+0060103001",
        "+6103821103",
        "+0000700000",
    ];
    let mut job = Job::new().with(101, &program).with(700, &["+0000000000"]);
    for cell in 0..20 {
        job = job.with(801 + cell, &["+2000000050"]).with(901 + cell, &["+3000000050"]);
    }
    let ended = job.run(999);
    assert_eq!((ended.reason.number(), ended.count), (0, 2 + 20 * 5 + 1));
    assert_eq!((ended.shown.text(), job.word(103)), ("+1200000052".into(), "+3821921000".into()));
}
