//! The second program: a model of the paper, and judges that compare another implementation with it.

mod chance;
mod decks;
mod files;
mod model;
mod numbers;
mod recorded;
mod self_test;
mod sessions;
mod speed;
mod verdict;

use std::process::ExitCode;

use numbers::roots;
use sessions::Stream;

const USAGE: &str = "\
usage: second numbers SEED COUNT FILE             write cases
       second roots SEED COUNT FILE
       second decks SEED COUNT FILE
       second sessions SEED COUNT FILE
       second codes SEED COUNT FILE
       second makes SEED COUNT FILE
       second answer-numbers FILE OUT             answer cases with the model (or answer-roots)
       second answer-decks FILE OUT
       second answer-sessions FILE OUT            (or answer-codes, answer-makes)
       second judge-numbers SEED COUNT ANSWERS    compare answers with the model's
       second judge-roots SEED COUNT ANSWERS
       second judge-decks SEED COUNT ANSWERS
       second judge-sessions SEED COUNT ANSWERS
       second judge-codes SEED COUNT ANSWERS
       second judge-makes SEED COUNT ANSWERS
       second damaged FOLDER                      damaged decks, and what the program says of each
       second session FILE [traced] [stop] [budget=N]   load a deck on an empty drum and run it
       second speed FILE plain|traced             orders a second on a deck that goes round
       second self COUNT SEED                     all but session with the model alone";

fn main() -> ExitCode {
    let arguments: Vec<String> = std::env::args().skip(1).collect();
    let arguments: Vec<&str> = arguments.iter().map(String::as_str).collect();
    match run(&arguments) {
        Some(true) => ExitCode::SUCCESS,
        Some(false) => ExitCode::from(1),
        None => {
            eprintln!("{USAGE}");
            ExitCode::from(2)
        }
    }
}

/// Does what the arguments ask; whether all is well, or none for a call that is not understood.
fn run(arguments: &[&str]) -> Option<bool> {
    match *arguments {
        ["damaged", folder] => {
            decks::damaged::write(folder);
            Some(true)
        }
        ["session", file, ref words @ ..] => recorded::session(file, words),
        ["speed", file, mode] => speed::orders(file, mode),
        ["self", count, seed] => Some(self_test::all(count.parse().ok()?, seed.parse().ok()?)),
        [command, cases, out] => answer(command, cases, out),
        [command, seed, count, file] => {
            let (seed, count) = (seed.parse().ok()?, count.parse().ok()?);
            write(command, seed, count, file).or_else(|| judge(command, seed, count, file))
        }
        _ => None,
    }
}

fn write(command: &str, seed: u64, count: u64, file: &str) -> Option<bool> {
    match command {
        "numbers" => numbers::write(seed, count, file),
        "roots" => roots::write(seed, count, file),
        "decks" => decks::write(seed, count, file),
        "sessions" => sessions::write(Stream::Drawn, seed, count, file),
        "codes" => sessions::write(Stream::Codes, seed, count, file),
        "makes" => sessions::write(Stream::Makes, seed, count, file),
        _ => return None,
    }
    // Not on the standard output, which may be the file.
    eprintln!("{command}: {count} cases written, seed {seed}");
    Some(true)
}

fn answer(command: &str, cases: &str, out: &str) -> Option<bool> {
    match command {
        "answer-numbers" | "answer-roots" => numbers::answer_all(cases, out),
        "answer-decks" => decks::answer_all(cases, out),
        "answer-sessions" | "answer-codes" | "answer-makes" => sessions::answer_all(cases, out),
        _ => return None,
    }
    Some(true)
}

fn judge(command: &str, seed: u64, count: u64, answers: &str) -> Option<bool> {
    Some(match command {
        "judge-numbers" => numbers::judge(seed, count, answers),
        "judge-roots" => roots::judge(seed, count, answers),
        "judge-decks" => decks::judge(seed, count, answers),
        "judge-sessions" => sessions::judge(Stream::Drawn, seed, count, answers),
        "judge-codes" => sessions::judge(Stream::Codes, seed, count, answers),
        "judge-makes" => sessions::judge(Stream::Makes, seed, count, answers),
        _ => return None,
    })
}
