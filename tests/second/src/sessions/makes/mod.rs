//! Sessions in which a deck is made of a drum and loaded on another.

mod cases;
mod law;
mod layout;
mod seen;

use super::message::{Make, Message};
use crate::chance::Chance;

pub use cases::session;
pub use law::brings_back;
pub use seen::{reachable, seen, Seen};

/// Marks what is put behind a drawn session apart from all streams of the same seed.
const KEPT: u64 = 7;

/// The shortest deck that can be made, T alone, and the longest: 199 cards of five words, one of four,
/// and T.
const LEAST: u64 = 7;
const LONGEST: u64 = 13_196;

/// A drawn session, ended; behind one of four the drum that it leaves is kept as a deck, loaded again
/// and run. The calls before are the same ones.
pub fn kept(mut session: Vec<Message>, seed: u64, index: u64) -> Vec<Message> {
    let chance = &mut Chance::of_case(seed, KEPT, index);
    if !chance.one_in(4) {
        return session;
    }
    let first_order = first_order(&session, chance);
    let (room, problem) = (chance.pick(&[LONGEST, 2_000, 2_000, 200]), chance.below(1_002));
    let end = session.pop().expect("the end of the session");
    session.extend([
        Message::Make(Make { room, first_order, problem }),
        Message::TakeMade,
        Message::Load { traced: chance.below(2) },
        Message::Run { room: 300, budget: 20, stop: chance.below(2) },
        end,
    ]);
    session
}

/// Most often a cell that is marked when the session begins.
fn first_order(session: &[Message], chance: &mut Chance) -> u64 {
    let any = chance.below(1_002);
    let Some(Message::Begin(begin)) = session.first() else { return any };
    let marked: Vec<u64> =
        (0..).zip(begin.marks.all()).filter(|(_, mark)| *mark == 1).map(|(cell, _)| cell).collect();
    if marked.is_empty() || chance.one_in(8) {
        return any;
    }
    chance.pick(&marked)
}
