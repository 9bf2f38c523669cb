//! Cells at the ends of the drum, kept for the probes that must lie there.

use super::draft::Draft;
use crate::model::event::{Event, Loss, Moved, Sum, Test};
use crate::model::stop::{Field, Reason};

/// So many cells are kept at an end.
pub const KEPT: u64 = 12;

#[derive(Clone, Copy, PartialEq, Eq)]
enum End {
    First,
    Last,
}

fn wanted(event: Event) -> Option<End> {
    match event {
        Event::Moved(Moved::SourceFrom1 | Moved::DestinationFrom1)
        | Event::MoveRefused { reason: Reason::BlockFrom000, unmarked: false } => Some(End::First),
        Event::Moved(Moved::SourceTo999 | Moved::DestinationTo999)
        | Event::MoveRefused { reason: Reason::BlockPast999(Field::B, _), unmarked: false }
        | Event::Tested { test: Test::At999, .. }
        | Event::Summed { sum: Sum::At999 | Sum::Cell999, .. }
        | Event::Lost { loss: Loss::At999, .. } => Some(End::Last),
        _ => None,
    }
}

/// Takes the ends before any other cell is taken.
pub fn keep(events: &[Event], draft: &mut Draft) {
    let wanted: Vec<End> = events.iter().filter_map(|&event| wanted(event)).collect();
    for (end, start) in [(End::First, 1), (End::Last, 1_000 - KEPT)] {
        if wanted.contains(&end) {
            draft.take(start, KEPT);
        }
    }
}

#[cfg(test)]
mod tests {
    use super::*;
    use crate::sessions::draw::probe::PROBES;
    use crate::sessions::reach::of_orders;

    #[test]
    fn no_two_probes_of_a_drum_want_one_end() {
        let events = of_orders();
        for first in 0..events.len() {
            let turns = (first..first + PROBES as usize).map(|turn| turn % events.len());
            let wanted: Vec<End> = turns.filter_map(|turn| wanted(events[turn])).collect();
            for end in [End::First, End::Last] {
                assert!(wanted.iter().filter(|&&other| other == end).count() < 2, "from {first}");
            }
        }
    }
}
