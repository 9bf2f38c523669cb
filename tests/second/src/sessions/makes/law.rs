//! What a deck is worth that was made of a drum: loaded on any valid drum with no mark, it gives the
//! same marks and the same marked words, 000 aside, and leaves all else on that drum as it was.

use crate::decks::UNHURT;
use crate::model::word::Word;
use crate::sessions::digest;
use crate::sessions::judge::Answered;
use crate::sessions::message::{Begin, Make, Message};

/// A session as this stream has them.
pub struct Parts<'a> {
    pub drum: &'a Begin,
    pub make: Make,
    another: &'a Begin,
    traced: bool,
}

pub fn parts(session: &[Message]) -> Parts<'_> {
    use Message::{Begin, EndOfSession, Load, Make, TakeMade};
    match session {
        [Begin(drum), Make(make), Begin(another), TakeMade, Load { traced }, EndOfSession] => {
            Parts { drum, make: *make, another, traced: *traced != 0 }
        }
        _ => panic!("a session of another form"),
    }
}

/// Whether the model's load of the model's deck answers what the law says, worked out from the two
/// drums alone. That the answers which were read are the model's is compared elsewhere.
pub fn brings_back(session: &[Message], calls: &[Answered]) -> bool {
    let [make, load] = calls else { panic!("a making and a load") };
    let &[number, written, ..] = &make.due[..] else { panic!("an answer to a making") };
    number != 0 || load.due == loaded(&parts(session), written)
}

/// The answer to the load.
fn loaded(parts: &Parts, written: u64) -> Vec<u64> {
    let (words, mut marks) = (parts.drum.cells.all(), parts.drum.marks.all());
    let mut cells = parts.another.cells.all();
    for cell in 1..cells.len() {
        if marks[cell] == 1 {
            cells[cell] = words[cell];
        }
    }
    (cells[0], marks[0]) = (Word::PLUS_ZERO.cell(), 1);
    let mode = parts.traced as u64;
    let mut answer = vec![0, 0, UNHURT];
    answer.extend([parts.make.first_order, 0, 0, 0, 0, parts.make.problem, written, mode, mode]);
    answer.extend([digest::of_numbers(&cells), digest::of_bytes(&marks)]);
    answer
}
