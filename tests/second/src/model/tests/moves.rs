//! Moves of blocks: how the blocks may lie, and what is refused.

use super::orders::one;
use super::Job;

/// The words of cells in a row, all of them marked.
fn words(job: &Job, from: usize, count: usize) -> Vec<String> {
    (from..from + count).map(|cell| job.word(cell)).collect()
}

/// A word that no other cell has.
fn of_cell(cell: u64) -> String {
    format!("{}{:010}", if cell % 2 == 0 { '-' } else { '+' }, cell * 7_000_003)
}

/// An order at 101, and in each of these cells, but for that, a word of its own.
fn job(order: &str, cells: std::ops::Range<u64>) -> Job {
    let mut job = Job::new();
    cells.for_each(|cell| job.put(cell as usize, &of_cell(cell)));
    job.with(101, &[order])
}

#[test]
fn the_move_of_the_newsletter() {
    let mut job = job("+9005701703", 701..706);
    assert_eq!((one(&mut job), job.location()), ((2, 1), 102));
    let due: Vec<String> = [701, 702, 701, 702, 703, 704, 705].map(of_cell).to_vec();
    assert_eq!(words(&job, 701, 7), due);
    assert_eq!((job.word(0), job.marks[708]), ("+0000000000".to_string(), 0));
}

#[test]
fn every_overlap_both_ways() {
    for count in 1..=5 {
        for by in 0..=count + 1 {
            for (from, to) in [(300, 300 + by), (300 + by, 300)] {
                let order = format!("+9{count:03}{from:03}{to:03}");
                let mut job = job(&order, from..from + count);
                assert_eq!((one(&mut job), job.location()), ((2, 1), 102));
                let due: Vec<String> = (from..from + count).map(of_cell).collect();
                assert_eq!(words(&job, to as usize, count as usize), due, "{order}");
                let marked = job.marks.iter().filter(|&&mark| mark == 1).count() as u64;
                assert_eq!(marked, 2 + count + by.min(count), "{order}");
                for cell in (from..from + count).filter(|cell| !(to..to + count).contains(cell)) {
                    assert_eq!(job.word(cell as usize), of_cell(cell), "{order}");
                }
            }
        }
    }
}

#[test]
fn any_word_is_moved_as_it_is_and_its_new_cell_is_marked() {
    let strange = ["-0000000000", "+0000000001", "-0999999999", "-9999999999"];
    let mut job = Job::new().with(101, &["+9004200996"]).with(200, &strange);
    job.put(0, "-1234567890");
    assert_eq!(one(&mut job), (2, 1));
    assert_eq!(words(&job, 996, 4), strange);
    assert_eq!(job.word(0), "-1234567890");
}

#[test]
fn both_ends_of_the_drum() {
    let answer = |order: &str, cells: std::ops::Range<u64>| one(&mut job(order, cells));
    assert_eq!(answer("+9003001997", 1..4), (2, 1));
    assert_eq!(answer("+9003997001", 997..1_000), (2, 1));
    assert_eq!(answer("+9001999999", 999..1_000), (2, 1));
    assert_eq!(answer("+9003001998", 1..4), (20, 0));
    assert_eq!(answer("+9003998001", 998..1_000), (20, 0));
    assert_eq!(answer("+9999999999", 1..1_000), (20, 0));
    assert_eq!(answer("+9001000200", 0..1), (20, 0));
    assert_eq!(answer("+9001200000", 200..201), (20, 0));
    // The whole drum has but one place.
    let mut all = job("+9999001001", 1..1_000);
    let before = all.cells.clone();
    assert_eq!((one(&mut all), all.cells), ((2, 1), before));
    assert_eq!(answer("+9999001002", 1..1_000), (20, 0));
    assert_eq!(answer("+9999002001", 1..1_000), (20, 0));
}

#[test]
fn holes_in_the_source_behind_the_ends() {
    for hole in 300..303 {
        let mut gap = job("+9003300400", 300..303);
        gap.marks[hole] = 0;
        assert_eq!(one(&mut gap), (21, 0));
    }
    // A hole in the destination does no harm, also where it is the source of nothing.
    let mut good = job("+9003300302", 300..303);
    assert_eq!((one(&mut good), good.marks[305]), ((2, 1), 0));
    // 20 is told where both hold.
    for order in ["+9003000400", "+9003300000", "+9003998400", "+9003300998"] {
        assert_eq!(one(&mut Job::new().with(101, &[order])), (20, 0), "{order}");
    }
    assert_eq!(one(&mut Job::new().with(101, &["+9003300400"])), (21, 0));
}

#[test]
fn the_box_makes_a_block_move_of_move_000() {
    let mut clear = job("-9000300400", 300..302);
    assert_eq!(one(&mut clear), (2, 1));
    assert_eq!((clear.word(400), clear.word(0)), (of_cell(300), of_cell(300)));
    for count in [1, 2] {
        let mut made = job("-9000300400", 300..302).with_counts([count, 0, 0]);
        assert_eq!(one(&mut made), (2, 1));
        assert_eq!(made.word(0), "+0000000000");
        assert_eq!(words(&made, 400, count as usize), words(&made, 300, count as usize));
        assert_eq!(made.marks[400 + count as usize], 0);
    }
    let mut steps = job("-9001299398", 300..302).with_counts([1, 1, 2]);
    assert_eq!((one(&mut steps), words(&steps, 400, 2)), ((2, 1), words(&steps, 300, 2)));
    assert_eq!(one(&mut job("-9999001001", 1..3).with_counts([1, 0, 0])), (20, 0));
}

#[test]
fn a_move_over_its_own_order_and_the_next() {
    let mut job = Job::new().with(101, &["+9002300101"]);
    job = job.with(300, &["-0000000007", "+0000300000"]);
    let ended = job.run(5);
    assert_eq!(
        (ended.reason.number(), ended.count, ended.shown.text()),
        (0, 2, "-0000000007".into())
    );
    assert_eq!((words(&job, 101, 2), job.location()), (words(&job, 300, 2), 102));
}

#[test]
fn traced_moves_show_the_word_in_cell_a() {
    let mut marked = Job::traced().with(2, &["-0000000005"]).with(101, &["-9001199300"]);
    marked = marked.with_counts([1, 1, 0]).with(200, &["+1000000050", "+2000000050"]);
    let ended = marked.run(1);
    let due = "X0001101-9001199300-9002200300+0001001000-0000000005+1000000050+0000000000007";
    assert_eq!((ended.reason.number(), marked.written(ended)), (2, due));
    assert_eq!(marked.word(301), "+2000000050");
    let mut unmarked = Job::traced().with(101, &["+9002200300"]).with(200, &["+1000000050"]);
    let ended = unmarked.run(1);
    let due = "X0001101+9002200300+9002200300+0000000000+0000000000+1000000050+0000000000007";
    assert_eq!((ended.reason.number(), unmarked.written(ended)), (21, due));
}
