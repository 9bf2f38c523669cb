//! Sessions of probes: each probe is a short run that is aimed at one event.

use super::aim::{aim, Aimed};
use super::draft::Draft;
use super::early::{refuse_early, sum_above_999};
use super::ends;
use super::parts::{before, built};
use crate::chance::Chance;
use crate::decks::build::Cards;
use crate::model::event::{Event, Moved, Tracing};
use crate::model::order::{Code, Order};
use crate::model::state::State;
use crate::model::stop::Reason;
use crate::sessions::message::Message;
use crate::sessions::reach::TRACINGS;

/// How many probes share a drum.
pub const PROBES: u64 = 6;

pub const TRACE_CARD: u64 = 77;

/// A probe that has its cells, ready to be run.
pub struct Probe {
    pub tracing: Tracing,
    pub location: u64,
    pub counts: [u64; 3],
    /// Orders up to the one aimed at, itself included.
    pub orders: u64,
    pub room: u64,
    pub deck: Option<(String, u64)>,
    pub switch_on_stop: bool,
    /// How many orders the budget has behind these.
    pub spare: u64,
    /// The loop box for a second run from the same location.
    pub again: Option<[u64; 3]>,
}

/// A session with one probe for each of the events.
pub fn session(events: &[Event], chance: &mut Chance) -> Vec<Message> {
    let draft = &mut Draft::new(chance);
    ends::keep(events, draft);
    let probes: Vec<Probe> = events.iter().map(|&event| laid_out(event, draft, chance)).collect();
    draft.begin(State::default(), chance);
    let common = Cards::any(chance).bytes();
    let common_end = common.len() as u64;
    let mut lying = Vec::new();
    for probe in probes {
        let (deck, reader) = match &probe.deck {
            Some((deck, reader)) => (deck.clone().into_bytes(), *reader),
            None => (common.clone(), common_end),
        };
        if deck != lying {
            draft.deck(deck.clone());
            lying = deck;
        }
        let mode = (probe.tracing != Tracing::Plain) as u64;
        let tracing = (probe.tracing == Tracing::On) as u64;
        let Probe { location, counts, .. } = probe;
        let counter = chance.pick(&[0, 1, 9_998, 9_999, 1_234]);
        let problem = chance.below(1_000);
        draft.set_state(State { location, counts, counter, problem, reader, mode, tracing });
        play(&probe, draft, chance);
    }
    std::mem::replace(draft, Draft::new(chance)).finish()
}

/// Runs a probe, and often goes on with what it has left.
fn play(probe: &Probe, draft: &mut Draft, chance: &mut Chance) {
    let stop = if probe.switch_on_stop { chance.pick(&[1, 2, u64::MAX]) } else { 0 };
    let ended = draft.run(probe.room, probe.orders + probe.spare, stop);
    let again = match ended.reason {
        Reason::NoRoomForTrace | Reason::NoRoomForPunch | Reason::DigitsLost => true,
        Reason::UncStop | Reason::CondStop | Reason::BudgetUsed => chance.one_in(3),
        _ => chance.one_in(8),
    };
    if again {
        let room = chance.pick(&[probe.room, 77, 154, 900]);
        draft.run(room, chance.between(1, 3), stop);
    }
    if let Some(counts) = probe.again {
        draft.set_state(State { location: probe.location, counts, ..draft.state() });
        draft.run(probe.room, probe.orders, stop);
    }
}

fn laid_out(event: Event, draft: &mut Draft, chance: &mut Chance) -> Probe {
    let (tracing, modified) = match event {
        Event::Completed { tracing, modified, .. } => (tracing, modified),
        Event::OrderRefused { tracing, .. }
        | Event::Refused { tracing, .. }
        | Event::Lost { tracing, .. } => (tracing, chance.one_in(4)),
        Event::StoppedForLoss { traced, .. }
        | Event::WentOnBehindLoss { traced }
        | Event::DigitsRefused { traced, .. } => {
            let tracing = if traced { chance.pick(&TRACINGS[1..]) } else { Tracing::Plain };
            (tracing, chance.one_in(4))
        }
        Event::Moved(Moved::ShowsA { .. }) => (Tracing::On, chance.one_in(4)),
        Event::Moved(_)
        | Event::MoveRefused { .. }
        | Event::Tested { .. }
        | Event::Summed { .. }
        | Event::SumWithin(_)
        | Event::SumUntold { .. }
        | Event::DoneAsCarried(_) => (chance.pick(&TRACINGS), chance.one_in(4)),
        Event::SumRefused { .. } => (chance.pick(&TRACINGS), false),
        _ => panic!("a probe is aimed at what an order comes to"),
    };
    let aimed = aim(event, draft, chance);
    let mut probe = placed(aimed, modified, tracing, draft, chance);
    match event {
        Event::Refused { reason, .. } => refuse_early(&mut probe, reason, draft, chance),
        Event::SumRefused { code, field } => {
            sum_above_999(&mut probe, Some(code), field, draft, chance)
        }
        _ => {}
    }
    probe
}

/// Puts the order, and one that leads to it if needed, into cells of their own.
fn placed(
    aimed: Aimed,
    modified: bool,
    tracing: Tracing,
    draft: &mut Draft,
    chance: &mut Chance,
) -> Probe {
    let leading = aimed.lead.is_some() as u64;
    let location = match aimed.location {
        Some(own) => own - leading,
        None => draft.free(leading + 1, chance),
    };
    if let Some(word) = aimed.lead {
        let from = draft.free_word(word, chance);
        draft.put_order(location, built(Code::Move000, 0, from, 0));
    }
    let (order, counts) = stored(&aimed, aimed.modified.unwrap_or(modified), chance);
    draft.put_order(location + leading, order);
    let cards = if tracing == Tracing::On { TRACE_CARD * (leading + 1) } else { 0 };
    let slack = chance.pick(&[0, 0, 1, 76, 200]);
    Probe {
        tracing,
        location,
        counts,
        orders: leading + 1,
        room: cards + aimed.room.unwrap_or(slack),
        deck: aimed.deck,
        switch_on_stop: aimed.switch_on_stop.unwrap_or_else(|| chance.one_in(3)),
        spare: aimed.spare.unwrap_or_else(|| chance.pick(&[0, 0, 1, 3])),
        again: aimed.again,
    }
}

/// The order as stored and the loop box, so that it is done as aimed. If it is to be modified, it
/// is a minus order with a live box; otherwise it may still be a minus order with a clear box.
fn stored(aimed: &Aimed, modified: bool, chance: &mut Chance) -> (Order, [u64; 3]) {
    let done = aimed.order;
    let tries = if modified { 20 } else { 0 };
    for _ in 0..tries {
        let most = chance.pick(&[1, 3, 999]);
        let drawn = [done.a, done.b, done.c].map(|address| chance.below(address.min(most) + 1));
        let counts = aimed.counts.unwrap_or(drawn);
        if let Some(order) = before(done, counts) {
            return (order, counts);
        }
    }
    if let Some(counts) = aimed.counts {
        return (done, counts);
    }
    if chance.one_in(4) {
        return (Order { minus: true, ..done }, [0; 3]);
    }
    let most = chance.pick(&[0, 2, 999]);
    (done, [0; 3].map(|_| chance.below(most + 1)))
}

#[cfg(test)]
mod tests {
    use super::*;
    use crate::sessions::bench::Bench;
    use crate::sessions::reach::of_orders;

    /// Here and there chance may get in its own way, but an aim that misses often is a bad one.
    #[test]
    fn every_aim_is_reached() {
        for event in of_orders() {
            let reached = |seed: &u64| {
                let mut seen = false;
                let mut bench = Bench::default();
                for message in session(&[event], &mut Chance::new(*seed)) {
                    bench.feed(&message, &mut |found| seen |= found == event);
                }
                seen
            };
            let times = (0..20).filter(reached).count();
            assert!(times >= 18, "{event:?}: {times} of 20");
        }
    }
}
