//! START TR, STOP TR and ST TR ERAS.

use super::{Effects, View};
use crate::model::event::Way;
use crate::model::state::State;
use crate::model::word::Word;

/// What ST TR ERAS leaves in its own cell: NOOP.
const ERASED: u64 = 454_000_000;

pub fn start_tr(view: &View) -> Effects {
    turned(1, view)
}

pub fn stop_tr(view: &View) -> Effects {
    turned(0, view)
}

/// The cell is erased in plain mode as well.
pub fn st_tr_eras(view: &View) -> Effects {
    let own = view.state.location;
    Effects { stores: vec![(own, Word::plus(ERASED))], ..turned(1, view) }
}

/// In plain mode tracing stays off.
fn turned(tracing: u64, view: &View) -> Effects {
    let go_on = Effects::only(view, Way::On);
    if !view.state.traced_mode() {
        return go_on;
    }
    Effects { state: State { tracing, ..*view.state }, ..go_on }
}
