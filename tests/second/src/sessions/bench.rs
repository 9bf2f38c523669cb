//! The model in the place of the driver: what lies on the bench during a session, and the answers.

use super::digest;
use super::message::{Make, Message};
use crate::decks::UNHURT;
use crate::model::calls::{load, run, Ended, Refusal, Run};
use crate::model::deck::check;
use crate::model::drum::Drum;
use crate::model::event::Event;
use crate::model::making::make;
use crate::model::order::Sums;
use crate::model::state::{State, NAMES};
use crate::model::stop::{Entry, Reason};

/// What every byte of the output holds before a run.
const UNTOUCHED: u8 = 0xA5;

/// What byte `i` of the output holds before a making: no byte of a card, and not its neighbour's.
fn unmade(i: usize) -> u8 {
    0x80 | (29 * i) as u8
}

#[derive(Clone, Default)]
pub struct Bench {
    cells: Vec<u64>,
    marks: Vec<u8>,
    deck: Vec<u8>,
    pub state: Vec<u64>,
    /// The deck that was made last.
    made: Vec<u8>,
    /// The state is the one that a stop for lost digits has left.
    behind_loss: bool,
    sums: Sums,
}

/// What a call gave.
#[derive(PartialEq)]
pub enum Outcome {
    Load(Result<(), Refusal>),
    Run { ended: Ended, out: Vec<u8> },
    Make { made: Result<u64, Reason>, out: Vec<u8> },
}

/// Which call an answer is to; `output`: how many of its numbers are the bytes of the output.
#[derive(Clone, Copy, PartialEq, Eq)]
pub enum Call {
    Load,
    Run,
    Make { output: usize },
}

/// In the answer to a making the output begins here.
const MADE: usize = 2;

impl Call {
    fn output(self) -> usize {
        match self {
            Call::Make { output } => output,
            Call::Load | Call::Run => 0,
        }
    }
}

impl Outcome {
    pub fn call(&self) -> Call {
        match self {
            Outcome::Load(_) => Call::Load,
            Outcome::Run { .. } => Call::Run,
            Outcome::Make { out, .. } => Call::Make { output: out.len().div_ceil(8) },
        }
    }
}

impl Bench {
    /// The same bench, on which address sums follow this rule.
    pub fn by(&self, sums: Sums) -> Bench {
        Bench { sums, ..self.clone() }
    }

    /// Whether drum, marks and state are the same.
    pub fn lies_as(&self, other: &Bench) -> bool {
        let Bench { cells, marks, state, .. } = self;
        (cells, marks, state) == (&other.cells, &other.marks, &other.state)
    }

    /// Does what a message asks; the outcome if it is a call.
    pub fn feed(&mut self, message: &Message, witness: &mut dyn FnMut(Event)) -> Option<Outcome> {
        match message {
            Message::Begin(begin) => {
                let (cells, marks) = (begin.cells.all(), begin.marks.all());
                let (state, made) = (begin.state.clone(), std::mem::take(&mut self.made));
                *self = Bench { cells, marks, state, made, sums: self.sums, ..Bench::default() };
                None
            }
            Message::Deck(deck) => {
                self.deck.clone_from(deck);
                None
            }
            Message::State(state) => {
                self.state.clone_from(state);
                self.behind_loss = false;
                None
            }
            Message::Load { traced } => {
                self.behind_loss = false;
                let Bench { cells, marks, deck, state, .. } = self;
                let loaded = load(cells, marks, deck, state, *traced != 0, witness);
                if let Err(Refusal { reason, .. }) = loaded {
                    let no_state = State::of_numbers(&self.state).is_err();
                    self.tell_untold(reason, false, no_state, witness);
                }
                Some(Outcome::Load(loaded))
            }
            Message::Run { room, budget, stop } => {
                Some(self.run(*room, *budget, *stop != 0, witness))
            }
            Message::Make(asked) => Some(self.make(*asked)),
            Message::TakeMade => {
                self.deck.clone_from(&self.made);
                None
            }
            Message::EndOfSession | Message::EndOfStream => None,
        }
    }

    fn run(
        &mut self,
        room: u64,
        budget: u64,
        stop: bool,
        witness: &mut dyn FnMut(Event),
    ) -> Outcome {
        let mut out = vec![UNTOUCHED; room as usize];
        let lent = Run {
            cells: &mut self.cells,
            marks: &mut self.marks,
            deck: &self.deck,
            out: &mut out,
            state: &mut self.state,
            budget,
            switch_on_stop: stop,
            sums: self.sums,
        };
        let ended = run(lent, witness);
        if self.behind_loss && ended.count > 0 {
            let state = State::of_numbers(&self.state).expect("the state of a run");
            witness(Event::WentOnBehindLoss { traced: state.traced_mode() });
        }
        self.behind_loss = ended.reason == Reason::DigitsLost;
        if ended.reason.entry().is_some() {
            let no_state = self.run_has_no_state(budget);
            self.tell_untold(ended.reason, true, no_state, witness);
        }
        Outcome::Run { ended, out }
    }

    /// Tells what else is wrong with a refused call, of later lines. It has changed nothing.
    fn tell_untold(
        &self,
        reason: Reason,
        run: bool,
        no_state: bool,
        witness: &mut dyn FnMut(Event),
    ) {
        match (reason.entry(), check(&self.deck)) {
            (Some(Entry::Drum), Err(bad)) => {
                witness(Event::DeckUntold { number: Reason::Deck(bad.fault).number(), run })
            }
            (Some(Entry::Deck), _) if no_state => {
                witness(Event::StateUntold { number: reason.number(), run })
            }
            _ => {}
        }
    }

    /// Whether a run with a good deck, and the reader behind its T, would be refused with 12.
    fn run_has_no_state(&mut self, budget: u64) -> bool {
        let good = check(b"T001000").expect("a good deck");
        let Ok(drum) = Drum::lent(&mut self.cells, &mut self.marks) else { return false };
        let Ok(state) = State::of_numbers(&self.state) else { return true };
        let state = State { reader: good.behind_t as u64, ..state };
        !state.faults(budget, &drum, &good).is_empty()
    }

    fn make(&mut self, asked: Make) -> Outcome {
        let Make { room, first_order, problem } = asked;
        let mut out: Vec<u8> = (0..room as usize).map(unmade).collect();
        let made = make(&self.cells, &self.marks, &mut out, first_order, problem);
        self.made = out[..made.map_or(0, |written| written as usize)].to_vec();
        Outcome::Make { made, out }
    }

    /// The numbers that the driver writes after a call. The drum's digest is the last but one.
    pub fn answer(&self, outcome: &Outcome) -> Vec<u64> {
        let mut answer = match outcome {
            Outcome::Load(Ok(())) => vec![0, 0],
            Outcome::Load(Err(Refusal { reason, place })) => vec![reason.number(), *place],
            Outcome::Run { ended, out } => {
                let Ended { reason, place, count, shown, written } = *ended;
                vec![reason.number(), place, count, shown.cell(), written, digest::of_bytes(out)]
            }
            Outcome::Make { made, out } => {
                let mut answer = match made {
                    Ok(written) => vec![0, *written],
                    Err(reason) => vec![reason.number(), 0],
                };
                answer.extend(out.chunks(8).map(eight));
                answer
            }
        };
        answer.push(UNHURT);
        answer.extend(&self.state);
        answer.push(digest::of_numbers(&self.cells));
        answer.push(digest::of_bytes(&self.marks));
        answer
    }
}

/// Eight bytes as a number, the least first, with zeros where there are fewer.
fn eight(bytes: &[u8]) -> u64 {
    bytes.iter().rev().fold(0, |number, &byte| number << 8 | byte as u64)
}

/// One number of an answer: its name, and the number or the bytes that it stands for.
pub fn told(call: Call, index: usize, answer: &[u64]) -> (String, String) {
    let (number, output) = (answer[index], call.output());
    if (MADE..MADE + output).contains(&index) {
        let bytes = 8 * (index - MADE);
        let text = number.to_le_bytes().escape_ascii().to_string();
        return (format!("bytes {bytes} to {} of the output", bytes + 7), text);
    }
    let index = if index < MADE { index } else { index - output };
    (label(call, index, answer.len() - output), number.to_string())
}

/// The name of a number of an answer from which the output is left out.
fn label(call: Call, index: usize, length: usize) -> String {
    let heads: &[&str] = match call {
        Call::Load => &["number", "place", "touched"],
        Call::Run => {
            &["number", "place", "count", "shown", "written", "digest of the output", "touched"]
        }
        Call::Make { .. } => &["number", "written", "touched"],
    };
    if let Some(head) = heads.get(index) {
        return head.to_string();
    }
    match length - index {
        1 => "digest of the marks".to_string(),
        2 => "digest of the drum".to_string(),
        _ => {
            let at = index - heads.len();
            NAMES.get(at).map_or(format!("state {at}"), |name| name.to_string())
        }
    }
}
