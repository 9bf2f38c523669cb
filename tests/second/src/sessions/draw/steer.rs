//! Going on with a session: runs with budgets and rooms of all sizes, and past what stopped them.

use std::ops::Range;

use super::draft::Draft;
use crate::chance::Chance;
use crate::model::calls::Ended;
use crate::model::stop::Reason;

/// A few runs; after each, the machine goes on from where it stands, or is helped past what stopped
/// it. `program` is where the orders lie.
pub fn steer(draft: &mut Draft, runs: u64, program: Range<u64>, chance: &mut Chance) {
    let generous = chance.percent(60);
    for _ in 0..runs {
        let budget = chance.pick(&[1, 2, 3, 5, 8, 13, 20, 40]);
        let room = if generous {
            2_000
        } else {
            chance.pick(&[0, 22, 66, 76, 77, 78, 154, 160, 308, 616])
        };
        let stop = chance.pick(&[0, 0, 1, 1 << 40]);
        let ended = draft.run(room, budget, stop);
        if ended.reason.entry().is_some() {
            return;
        }
        if !may_go_on(ended, chance) {
            help(draft, &program, chance);
        }
    }
}

/// Whether the next run begins with the state as it is: always after 01, 02 and 03, mostly after 22,
/// where more room may come, and now and then after others, to see the same order tried again.
fn may_go_on(ended: Ended, chance: &mut Chance) -> bool {
    match ended.reason {
        Reason::CondStop | Reason::BudgetUsed | Reason::DigitsLost => true,
        Reason::NoRoomForTrace | Reason::NoRoomForPunch => chance.percent(80),
        _ => chance.one_in(8),
    }
}

/// Puts the location behind the order that would not go on, or somewhere into the program if that
/// is not part of it.
fn help(draft: &mut Draft, program: &Range<u64>, chance: &mut Chance) {
    let mut state = draft.state();
    let next = state.location + 1;
    state.location = if program.contains(&next) && chance.percent(90) {
        next
    } else {
        chance.between(program.start, program.end - 1)
    };
    if state.counts.iter().any(|&count| count > 20) || chance.one_in(6) {
        state.counts = [0; 3];
    }
    draft.set_state(state);
}
