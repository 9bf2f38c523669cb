//! The messages of a session stream, and how they are written and read.

use crate::files::{Reading, Writing};

#[derive(Clone, Debug, PartialEq, Eq)]
pub enum Message {
    Begin(Begin),
    Deck(Vec<u8>),
    Load {
        traced: u64,
    },
    Run {
        room: u64,
        budget: u64,
        stop: u64,
    },
    State(Vec<u64>),
    Make(Make),
    /// What was made last is the deck now.
    TakeMade,
    EndOfSession,
    EndOfStream,
}

/// What a making is asked for.
#[derive(Clone, Copy, Debug, PartialEq, Eq)]
pub struct Make {
    pub room: u64,
    pub first_order: u64,
    pub problem: u64,
}

/// Drum, marks and state at the start of a session.
#[derive(Clone, Debug, PartialEq, Eq)]
pub struct Begin {
    pub cells: Cells,
    pub marks: Marks,
    pub state: Vec<u64>,
}

/// The drum in full, or by a rule and its exceptions: cell i holds `fill * (i + 1)`, wrapped to 64
/// bits, unless a pair names it.
#[derive(Clone, Debug, PartialEq, Eq)]
pub enum Cells {
    Full(Vec<u64>),
    Sparse { length: u64, fill: u64, pairs: Vec<(u64, u64)> },
}

/// The marks in full, or the ones that are not 0. Full marks go with a full drum.
#[derive(Clone, Debug, PartialEq, Eq)]
pub enum Marks {
    Full(Vec<u8>),
    Sparse { length: u64, pairs: Vec<(u64, u64)> },
}

impl Cells {
    pub fn all(&self) -> Vec<u64> {
        match self {
            Cells::Full(cells) => cells.clone(),
            Cells::Sparse { length, fill, pairs } => {
                let mut cells: Vec<u64> = (1..=*length).map(|i| fill.wrapping_mul(i)).collect();
                for &(index, value) in pairs {
                    cells[index as usize] = value;
                }
                cells
            }
        }
    }

    /// The cells that have a number of their own.
    pub fn named(&self) -> Vec<u64> {
        match self {
            Cells::Full(cells) => (0..cells.len() as u64).collect(),
            Cells::Sparse { pairs, .. } => pairs.iter().map(|&(cell, _)| cell).collect(),
        }
    }
}

impl Marks {
    pub fn all(&self) -> Vec<u8> {
        match self {
            Marks::Full(marks) => marks.clone(),
            Marks::Sparse { length, pairs } => {
                let mut marks = vec![0; *length as usize];
                for &(index, mark) in pairs {
                    marks[index as usize] = u8::try_from(mark).expect("a mark is a byte");
                }
                marks
            }
        }
    }
}

impl Message {
    pub fn write(&self, out: &mut Writing) {
        match self {
            Message::EndOfStream => out.numbers(&[0]),
            Message::Begin(begin) => write_begin(begin, out),
            Message::Deck(deck) => {
                out.numbers(&[2, deck.len() as u64]);
                out.bytes(deck);
            }
            Message::Load { traced } => out.numbers(&[3, *traced]),
            Message::Run { room, budget, stop } => out.numbers(&[4, *room, *budget, *stop]),
            Message::State(state) => {
                out.numbers(&[5, state.len() as u64]);
                out.numbers(state);
            }
            Message::EndOfSession => out.numbers(&[6]),
            Message::Make(Make { room, first_order, problem }) => {
                out.numbers(&[8, *room, *first_order, *problem])
            }
            Message::TakeMade => out.numbers(&[9]),
        }
    }

    /// The next message, or none if the file ends within it.
    pub fn read(input: &mut Reading) -> Option<Message> {
        Some(match input.number()? {
            0 => Message::EndOfStream,
            1 => {
                let cells = Cells::Full(counted(input)?);
                let length = input.number()?;
                let marks = Marks::Full(input.bytes(length)?);
                Message::Begin(Begin { cells, marks, state: counted(input)? })
            }
            2 => {
                let length = input.number()?;
                Message::Deck(input.bytes(length)?)
            }
            3 => Message::Load { traced: input.number()? },
            4 => {
                let [room, budget, stop] = input.some()?;
                Message::Run { room, budget, stop }
            }
            5 => Message::State(counted(input)?),
            6 => Message::EndOfSession,
            7 => {
                let [length, fill] = input.some()?;
                let cells = Cells::Sparse { length, fill, pairs: pairs(input)? };
                let marks = Marks::Sparse { length: input.number()?, pairs: pairs(input)? };
                Message::Begin(Begin { cells, marks, state: counted(input)? })
            }
            8 => {
                let [room, first_order, problem] = input.some()?;
                Message::Make(Make { room, first_order, problem })
            }
            9 => Message::TakeMade,
            other => panic!("no message has the tag {other}"),
        })
    }
}

fn write_begin(begin: &Begin, out: &mut Writing) {
    match (&begin.cells, &begin.marks) {
        (Cells::Full(cells), Marks::Full(marks)) => {
            out.numbers(&[1, cells.len() as u64]);
            out.numbers(cells);
            out.numbers(&[marks.len() as u64]);
            out.bytes(marks);
        }
        (Cells::Sparse { length, fill, pairs }, Marks::Sparse { length: marks, pairs: marked }) => {
            out.numbers(&[7, *length, *fill]);
            write_pairs(pairs, out);
            out.numbers(&[*marks]);
            write_pairs(marked, out);
        }
        _ => panic!("drum and marks are both full or both sparse"),
    }
    out.numbers(&[begin.state.len() as u64]);
    out.numbers(&begin.state);
}

fn write_pairs(pairs: &[(u64, u64)], out: &mut Writing) {
    out.numbers(&[pairs.len() as u64]);
    for &(index, value) in pairs {
        out.numbers(&[index, value]);
    }
}

fn counted(input: &mut Reading) -> Option<Vec<u64>> {
    let count = input.number()?;
    input.many(count)
}

fn pairs(input: &mut Reading) -> Option<Vec<(u64, u64)>> {
    let count = input.number()?;
    (0..count).map(|_| input.some().map(|[index, value]| (index, value))).collect()
}
