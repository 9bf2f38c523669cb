//! Differential testing of the seven operations.

mod cases;
mod judge;
mod operands;
pub mod roots;
mod seen;
mod shapes;

use crate::chance::Chance;
use crate::files::{Reading, Writing};
use crate::model::operation::{of_one, of_two, OfOne, OfTwo, Reckoned};
use crate::model::stop::{Field, Reason};
use crate::model::word::Word;
use cases::{is_sum, Case};

pub use judge::judge;
pub use operands::{any_number, stranger};

/// The operations by their number in a case.
const NAMES: [&str; 7] = ["add", "sub", "mpy", "div", "ngmpy", "sqrt", "abs"];

/// The answer of the C calls: 0 and the word, or the stop number and 0; behind that, of sums and
/// differences, how many digits went.
fn answer(case: Case) -> Vec<u64> {
    let (number, word, lost) = match outcome(case) {
        Ok(Reckoned { word, lost }) => (0, word.cell(), lost),
        Err(reason) => (reason.number(), 0, 0),
    };
    if is_sum(case.operation) {
        vec![number, word, lost]
    } else {
        vec![number, word]
    }
}

/// An operand that is no word is no number either.
fn outcome(case: Case) -> Result<Reckoned, Reason> {
    let a = Word::of_cell(case.a).ok_or(Reason::NotNumber(Field::A))?;
    match case.operation {
        0 => of_two(OfTwo::Add, a, second(case)?),
        1 => of_two(OfTwo::Sub, a, second(case)?),
        2 => of_two(OfTwo::Mpy, a, second(case)?),
        3 => of_two(OfTwo::Div, a, second(case)?),
        4 => of_two(OfTwo::Ngmpy, a, second(case)?),
        5 => of_one(OfOne::Sqrt, a),
        6 => of_one(OfOne::Abs, a),
        other => panic!("no operation has the number {other}"),
    }
}

fn second(case: Case) -> Result<Word, Reason> {
    Word::of_cell(case.b).ok_or(Reason::NotNumber(Field::B))
}

/// Operands of the operation with this number whose outcome is a wanted one.
pub fn operands_for(
    operation: u64,
    chance: &mut Chance,
    wanted: impl Fn(Result<Reckoned, Reason>) -> bool,
) -> (Word, Word) {
    loop {
        let (a, b) = cases::operands(operation, chance);
        let words = Word::of_cell(a).zip(Word::of_cell(b));
        if let Some(words) = words.filter(|_| wanted(outcome(Case { operation, a, b }))) {
            return words;
        }
    }
}

pub fn write(seed: u64, count: u64, path: &str) {
    write_all((0..count).map(|index| cases::case(seed, index)), path);
}

fn write_all(cases: impl Iterator<Item = Case>, path: &str) {
    let mut out = Writing::create(path);
    for Case { operation, a, b } in cases {
        out.numbers(&[operation, a, b]);
    }
    out.finish();
}

/// The model in the place of the driver.
pub fn answer_all(cases: &str, answers: &str) {
    let mut input = Reading::open(cases);
    let mut out = Writing::create(answers);
    while !input.at_end() {
        let [operation, a, b] = input.some().expect("a whole case");
        out.numbers(&answer(Case { operation, a, b }));
    }
    out.finish();
}
