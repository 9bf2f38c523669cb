//! The sessions: one for each index of a stream.

mod aim;
mod block;
mod carries;
pub mod codes;
mod compare;
mod draft;
mod early;
mod ends;
mod hostile;
mod large;
mod layout;
mod loss;
mod moves;
mod named;
mod parts;
mod probe;
mod program;
mod soup;
mod steer;
mod text;
mod unmoved;
pub mod wrong;

use super::message::Message;
use super::reach;
use crate::chance::Chance;

/// Marks this stream apart from the others of the same seed.
const KIND: u64 = 3;

/// Of twenty sessions in a row, so many are of each sort; the rest are programs of chance.
const CYCLE: u64 = 20;
const PROBED: u64 = 9;
const HOSTILE: u64 = 3;
const PLANNED: u64 = 4;

/// One session of so many is a large one.
const LARGE: u64 = 60;

/// The session of an index, ended but not yet with its twin.
pub fn session(seed: u64, index: u64) -> Vec<Message> {
    let chance = &mut Chance::of_case(seed, KIND, index);
    if let Some(session) = named::session(index, chance) {
        return session;
    }
    if index % LARGE == LARGE - 1 {
        let at = (index / LARGE) as usize % reach::LARGE.len();
        return large::session(reach::LARGE[at], chance);
    }
    let (round, turn) = (index / CYCLE, index % CYCLE);
    if turn < PROBED {
        return probed(round * PROBED + turn, chance);
    }
    if turn < PROBED + HOSTILE {
        let events = reach::of_calls();
        let at = round * HOSTILE + turn - PROBED;
        return hostile::session(events[at as usize % events.len()], chance);
    }
    if turn < PROBED + HOSTILE + PLANNED {
        return program::session(chance);
    }
    soup::session(chance)
}

/// The probes go round and round the list of all that can be reached.
fn probed(at: u64, chance: &mut Chance) -> Vec<Message> {
    let events = reach::of_orders();
    let first = at * probe::PROBES;
    let turns = first..first + probe::PROBES;
    let aims: Vec<_> = turns.map(|turn| events[turn as usize % events.len()]).collect();
    probe::session(&aims, chance)
}
