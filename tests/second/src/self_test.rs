//! The self-test: the model answers its own cases and the judges must agree; then one answer at a
//! time is spoiled and the judges must see it. Every step is a process of its own, so that files and
//! exit statuses are tested as well.

use std::fs;
use std::path::{Path, PathBuf};
use std::process::Command;

use crate::model::state::NUMBERS;

const KINDS: [&str; 5] = ["numbers", "roots", "decks", "sessions", "makes"];

/// Enough cases for full coverage; the spoiled answers are judged on so many.
const FEW: u64 = 1_000;

/// What follows number and place of a load, and the six numbers of a run.
const BLOCK: usize = 1 + NUMBERS + 2;

/// The answer to the first making, of seven bytes and with no state.
const MADE: usize = 2 + 1 + 1 + 2;

/// All codes that an order can have.
const CODES: u64 = 10_000;

/// What the last line of a judge says when all answers are right.
const NONE: &str = " 0 differences,";

/// How many answers, counted in numbers of eight bytes from the start, are spoiled one by one. In
/// sessions these are all parts of the answers to a load and to the run behind it, in makes to a
/// making and to the load behind it, in numbers to a sum and to a difference, in roots to three of
/// them.
fn spoiled(kind: &str) -> usize {
    match kind {
        "sessions" => (2 + BLOCK) + (6 + BLOCK),
        "makes" => MADE + (2 + BLOCK),
        _ => 6,
    }
}

/// Whether everything went as it must.
pub fn all(count: u64, seed: u64) -> bool {
    if count < FEW {
        eprintln!("second: the self-test takes at least {FEW} cases");
        return false;
    }
    let folder = std::env::temp_dir().join(format!("second-self-{}", std::process::id()));
    fs::create_dir_all(&folder).expect("a folder for the files of the self-test");
    let mut fine = true;
    for kind in KINDS {
        let test = Test { kind, folder: &folder };
        fine &= test.agrees(count, seed, true);
        fine &= test.misses_coverage(seed);
        fine &= test.agrees(FEW, seed, false) && test.sees_what_is_spoiled(seed);
    }
    // These have the judge of the sessions, and are complete only as a whole.
    let codes = Test { kind: "codes", folder: &folder };
    fine &= codes.agrees(CODES, seed, true) && codes.misses_coverage(seed);
    fs::remove_dir_all(&folder).expect("the folder of the self-test can be removed");
    println!("self: {}, seed {seed}", if fine { "all as it must be" } else { "FAILED" });
    fine
}

struct Test<'a> {
    kind: &'a str,
    folder: &'a Path,
}

impl Test<'_> {
    fn file(&self, name: &str) -> PathBuf {
        self.folder.join(format!("{}-{name}", self.kind))
    }

    /// Cases and the model's answers to them; what the judge says.
    fn played(&self, count: u64, seed: u64) -> (i32, String) {
        let (kind, cases, answers) = (self.kind, self.file("cases"), self.file("answers"));
        call(&[kind, &seed.to_string(), &count.to_string(), text(&cases)]);
        call(&[&format!("answer-{kind}"), text(&cases), text(&answers)]);
        self.judge(count, seed, &answers)
    }

    fn agrees(&self, count: u64, seed: u64, told: bool) -> bool {
        let (status, last) = self.played(count, seed);
        if told {
            println!("{last}");
        }
        self.expect(status == 0 && last.contains(NONE), "the judge rejects the model")
    }

    /// Two cases can't cover everything, though their answers are right.
    fn misses_coverage(&self, seed: u64) -> bool {
        let (status, last) = self.played(2, seed);
        self.expect(status == 1 && last.contains(NONE), "the judge overlooks what was not covered")
    }

    fn sees_what_is_spoiled(&self, seed: u64) -> bool {
        let answers = fs::read(self.file("answers")).expect("the answers");
        let spoiled_file = self.file("spoiled");
        let mut fine = true;
        let mut spoil = |bytes: &[u8], what: &str| {
            fs::write(&spoiled_file, bytes).expect("the spoiled answers can be written");
            let (status, last) = self.judge(FEW, seed, &spoiled_file);
            fine &= self.expect(status == 1 && !last.contains(NONE), what);
        };
        for number in 0..spoiled(self.kind) {
            let mut bytes = answers.clone();
            bytes[8 * number + number % 8] ^= 1 << (number % 5);
            spoil(&bytes, &format!("the judge overlooks number {number}"));
        }
        let mut last = answers.clone();
        *last.last_mut().expect("answers are not empty") ^= 0x80;
        spoil(&last, "the judge overlooks the last byte");
        spoil(&answers[..answers.len() - 8], "the judge overlooks that the answers end early");
        spoil(&[&answers[..], &[0]].concat(), "the judge overlooks that the answers go on");
        fine
    }

    /// The exit status of a judge and the last line it prints.
    fn judge(&self, count: u64, seed: u64, answers: &Path) -> (i32, String) {
        call(&[
            &format!("judge-{}", self.kind),
            &seed.to_string(),
            &count.to_string(),
            text(answers),
        ])
    }

    fn expect(&self, holds: bool, otherwise: &str) -> bool {
        if !holds {
            println!("self: {}: {otherwise}", self.kind);
        }
        holds
    }
}

fn text(path: &Path) -> &str {
    path.to_str().expect("a path that is text")
}

/// Runs this program with other arguments.
fn call(arguments: &[&str]) -> (i32, String) {
    let program = std::env::current_exe().expect("the path of this program");
    let output =
        Command::new(program).args(arguments).output().expect("this program can be started");
    let printed = String::from_utf8_lossy(&output.stdout);
    let last = printed.lines().last().unwrap_or("").to_string();
    (output.status.code().unwrap_or(-1), last)
}
