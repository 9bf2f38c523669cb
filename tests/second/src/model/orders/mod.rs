//! What each order does. A plan looks at the machine and changes nothing: it gives either all
//! effects of the order, or the reason of its refusal. So a refused order is undone by itself.

pub mod address;
pub mod block_move;
mod cards;
mod mathematical;
mod tracing;
mod transfer;

use super::deck::Deck;
use super::drum::Drum;
use super::event::Way;
use super::order::{Code, Order, Sums};
use super::state::State;
use super::stop::{Field, Reason};
use super::word::Word;

/// What an order may look at.
pub struct View<'a> {
    pub drum: &'a Drum<'a>,
    pub state: &'a State,
    pub deck: &'a Deck,
    /// The PROGRAMMED STOP switch is on STOP.
    pub switch_on_stop: bool,
    pub sums: Sums,
    /// Bytes of output left.
    pub room: usize,
}

/// All that a completed order changes.
pub struct Effects {
    /// Cells and their new words; every store marks.
    pub stores: Vec<(u64, Word)>,
    pub way: Way,
    /// The state, but for the location.
    pub state: State,
    pub punched: String,
    /// The stop that the order makes, with the word shown.
    pub stop: Option<(Reason, Word)>,
}

impl Effects {
    /// Nothing but going on or going elsewhere.
    fn only(view: &View, way: Way) -> Effects {
        Effects { stores: Vec::new(), way, state: *view.state, punched: String::new(), stop: None }
    }
}

pub fn plan(code: Code, order: Order, view: &View) -> Result<Effects, Reason> {
    match code {
        Code::OfTwo(operation) => mathematical::of_two(operation, order, view),
        Code::OfOne(operation) => mathematical::of_one(operation, order, view),
        Code::Move000 => mathematical::move_000(order, view),
        Code::Move => block_move::move_block(order, view),
        Code::CondStop => Ok(transfer::cond_stop(order, view)),
        Code::UncStop => Ok(transfer::unc_stop(order, view)),
        Code::TrSgn => Ok(transfer::tr_sgn(view)),
        Code::TrExp => Ok(transfer::tr_exp(order, view)),
        Code::Tr => Ok(Effects::only(view, Way::ToC)),
        Code::TrSubr => transfer::tr_subr(order, view),
        Code::Loop(named) => Ok(address::loop_orders(named, order, view)),
        Code::Change(change, field) => address::change(change, field, order, view),
        Code::TrAddress(field) => address::compare(field, order, view),
        Code::Pch => cards::pch(order, view),
        Code::Read => cards::read(order, view),
        Code::StartTr => Ok(tracing::start_tr(view)),
        Code::StopTr => Ok(tracing::stop_tr(view)),
        Code::StTrEras => Ok(tracing::st_tr_eras(view)),
        Code::Noop => Ok(Effects::only(view, Way::On)),
    }
}

/// The word at an address that the order's line uses.
fn used(view: &View, order: Order, field: Field) -> Result<Word, Reason> {
    view.drum.word(order.address(field)).ok_or(Reason::Unmarked(field))
}
