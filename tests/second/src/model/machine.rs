//! One order after another.

use super::arithmetic::{lost, OutOfRange};
use super::besides::{of_move, of_refused_move, of_test, Scene};
use super::deck::Deck;
use super::drum::Drum;
use super::event::{Event, Large, Loss, Sum, Tracing, Way};
use super::operation::lost_below;
use super::order::{code, Change, Code, Order, Sums};
use super::orders::{plan, Effects, View};
use super::state::State;
use super::stop::Reason;
use super::sums::of_sum;
use super::trace::{next_counter, trace_card};
use super::word::Word;

pub struct Machine<'a> {
    pub drum: Drum<'a>,
    pub deck: Deck,
    pub state: State,
    pub switch_on_stop: bool,
    pub sums: Sums,
    pub out: &'a mut [u8],
    pub written: usize,
    /// How the order before changed O1 of the next one, if it did; only told.
    pub recoded: Option<Change>,
    pub witness: &'a mut dyn FnMut(Event),
}

/// A stop that an order makes, with the word it shows.
pub type Stop = Option<(Reason, Word)>;

impl Machine<'_> {
    /// Does the order at the location, or says why not. The checks come in the paper's order; of a
    /// refused order only its trace card and that card's number remain.
    pub fn step(&mut self) -> Result<Stop, Reason> {
        let (tracing, recoded) = (self.tracing(), self.recoded.take());
        let (stored, order, code) = match self.fetch() {
            Ok(fetched) => fetched,
            Err(reason) => {
                (self.witness)(Event::Refused { reason, tracing });
                self.tell_of_sum(reason);
                return Err(reason);
            }
        };
        let view = View {
            drum: &self.drum,
            state: &self.state,
            deck: &self.deck,
            switch_on_stop: self.switch_on_stop,
            sums: self.sums,
            room: self.out.len() - self.written,
        };
        let planned = plan(code, order, &view);
        self.tell_of_loss(code, order, &planned, tracing);
        self.tell_of_address_sum(code, Order::of_word(stored), order, &planned);
        match planned {
            Ok(effects) => {
                let (way, stop) = (effects.way, effects.stop);
                let modified = order.word() != stored;
                self.tell_of_block(code, order, &effects.state);
                self.tell_of_addresses(code, Order::of_word(stored), order);
                self.apply(order, effects);
                (self.witness)(Event::Completed {
                    code,
                    way,
                    stopped: stop.is_some(),
                    tracing,
                    modified,
                });
                if let Some(change) = recoded {
                    (self.witness)(Event::DoneAsCarried(change));
                }
                Ok(stop)
            }
            Err(reason) => {
                (self.witness)(Event::OrderRefused { code, reason, tracing });
                if let (Code::Move, Some((reason, unmarked))) =
                    (code, of_refused_move(order, &self.drum))
                {
                    (self.witness)(Event::MoveRefused { reason, unmarked });
                }
                Err(reason)
            }
        }
    }

    fn tell_of_sum(&mut self, reason: Reason) {
        let Reason::SumAbove999(field) = reason else { return };
        let stored = Order::of_word(self.drum.shown(self.state.location));
        if let Some(code) = code(stored) {
            (self.witness)(Event::SumRefused { code, field });
        }
    }

    /// What a move, TR A, TR B or TR C has about it that is about to be done.
    fn tell_of_addresses(&mut self, code: Code, stored: Order, order: Order) {
        let scene = Scene { stored, order, drum: &self.drum, state: &self.state };
        match code {
            Code::Move | Code::Move000 => {
                for moved in of_move(code, &scene) {
                    (self.witness)(Event::Moved(moved));
                }
            }
            Code::TrAddress(field) => {
                let (equal, tests) = of_test(field, &scene);
                for test in tests {
                    (self.witness)(Event::Tested { field, equal, test });
                }
            }
            _ => {}
        }
    }

    /// What ADD or SUB of an address has about it that is about to be done, or is refused.
    fn tell_of_address_sum(
        &mut self,
        code: Code,
        stored: Order,
        order: Order,
        planned: &Result<Effects, Reason>,
    ) {
        let Code::Change(change @ (Change::Add | Change::Sub), field) = code else { return };
        if order.b == 0 {
            return;
        }
        let scene = Scene { stored, order, drum: &self.drum, state: &self.state };
        let after = planned.as_ref().ok().map(|effects| effects.stores[0].1);
        for event in of_sum(change, field, &scene, after) {
            if let Event::Summed { sum: Sum::NextCode, .. } = event {
                self.recoded = Some(change);
            }
            (self.witness)(event);
        }
    }

    /// What is large about the block of a READ, a PCH or a MOVE that is about to be done.
    fn tell_of_block(&mut self, code: Code, order: Order, after: &State) {
        let before = self.state;
        let over_itself = (order.b..=order.c).contains(&before.location);
        let cells = (order.c + 1).saturating_sub(order.b);
        let wraps = after.counter < before.counter && before.counter != 9_999;
        let told = match code {
            Code::Read => vec![
                (over_itself, Large::ReadOverItself),
                (cells > 60, Large::ReadOfMany),
                (cells > 255, Large::ReadOfHundreds),
                (before.reader > 40_000, Large::ReadFar),
            ],
            Code::Pch if !before.traced_mode() => vec![
                (over_itself, Large::PchOverItself),
                (cells > 255, Large::PchOfHundreds),
                (wraps, Large::PchWraps),
            ],
            Code::Move => {
                let over = order.a > 255 && order.b.abs_diff(order.c) < order.a;
                vec![
                    (over && order.c > order.b, Large::MoveUp),
                    (over && order.c < order.b, Large::MoveDown),
                    (order.a == 999, Large::MoveOfAll),
                ]
            }
            _ => return,
        };
        for (_, large) in told.into_iter().filter(|(holds, _)| *holds) {
            (self.witness)(Event::Large(large));
        }
    }

    /// What a sum comes to that is about to be done, or is refused.
    fn tell_of_loss(
        &mut self,
        code: Code,
        order: Order,
        planned: &Result<Effects, Reason>,
        tracing: Tracing,
    ) {
        let Code::OfTwo(operation) = code else { return };
        let words = (self.drum.word(order.a), self.drum.word(order.b));
        let (true, (Some(a), Some(b))) = (operation.is_sum(), words) else { return };
        let (Some(x), Some(y)) = (a.number(), b.number()) else { return };
        let location = self.state.location;
        let told = match planned {
            Ok(Effects { stores, stop, .. }) => {
                let result = stores[0].1.number().expect("a sum is a number");
                let lost = lost(x, y, result);
                let all_gone = !x.is_zero() && !y.is_zero() && result.is_zero();
                let (stops, on_stop) = (stop.is_some(), self.switch_on_stop);
                vec![
                    (stops && lost == 3, Loss::JustThree),
                    (stops && location == 999, Loss::At999),
                    (stops && order.c == 0, Loss::Into000),
                    (stops && order.c == location, Loss::OverItself),
                    (stops && order.c == location + 1, Loss::OverNext),
                    (on_stop && lost == 2, Loss::JustTwo),
                    (on_stop && all_gone, Loss::AllGone),
                    (!on_stop && lost > 2, Loss::OnRun),
                ]
            }
            Err(Reason::Range(OutOfRange::Below)) if self.switch_on_stop => {
                vec![(lost_below(operation, a, b) > 2, Loss::BelowRange)]
            }
            Err(_) => return,
        };
        for (_, loss) in told.into_iter().filter(|(holds, _)| *holds) {
            (self.witness)(Event::Lost { loss, operation, tracing });
        }
    }

    fn tracing(&self) -> Tracing {
        match (self.state.traced_mode(), self.state.tracing_is_on()) {
            (false, _) => Tracing::Plain,
            (true, false) => Tracing::Off,
            (true, true) => Tracing::On,
        }
    }

    /// All that comes before the code's own checks, the trace card included.
    fn fetch(&mut self) -> Result<(Word, Order, Code), Reason> {
        let (stored, done) = self.order_as_done()?;
        if self.state.tracing_is_on() {
            self.trace(stored, done)?;
        }
        let code = code(done).ok_or(Reason::NotBuilt)?;
        Ok((stored, done, code))
    }

    /// The location, the order's own cell, then the sums with the loop box.
    fn order_as_done(&self) -> Result<(Word, Order), Reason> {
        match self.state.location {
            0 => return Err(Reason::Location000),
            1..=999 => {}
            _ => return Err(Reason::LocationPast999),
        }
        let stored = self.drum.word(self.state.location).ok_or(Reason::OrderUnmarked)?;
        let done = Order::of_word(stored).made_with(self.state.counts)?;
        Ok((stored, done))
    }

    /// Writes the trace card.
    fn trace(&mut self, stored: Word, done: Order) -> Result<(), Reason> {
        let counted = State { counter: next_counter(self.state.counter), ..self.state };
        let card = trace_card(stored, done, &counted, &self.drum);
        if card.len() > self.out.len() - self.written {
            return Err(Reason::NoRoomForTrace);
        }
        self.state = counted;
        self.write(&card);
        Ok(())
    }

    fn apply(&mut self, order: Order, effects: Effects) {
        let location = match effects.way {
            Way::On => self.state.location + 1,
            Way::ToB => order.b,
            Way::ToC => order.c,
            Way::Stays => self.state.location,
        };
        for (cell, word) in effects.stores {
            self.drum.store(cell, word);
        }
        self.state = State { location, ..effects.state };
        self.write(&effects.punched);
    }

    /// The caller has seen that it fits. Bytes behind it stay as they are.
    fn write(&mut self, card: &str) {
        self.out[self.written..self.written + card.len()].copy_from_slice(card.as_bytes());
        self.written += card.len();
    }
}
