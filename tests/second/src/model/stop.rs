//! Why a call or an order ended, and the stop number of each reason.

use super::arithmetic::OutOfRange;
use super::card::CardFault;
use super::deck::Fault;

/// An address of an order, or the count of the loop box that belongs to it.
#[derive(Clone, Copy, Debug, PartialEq, Eq, PartialOrd, Ord)]
pub enum Field {
    A,
    B,
    C,
}

pub const FIELDS: [Field; 3] = [Field::A, Field::B, Field::C];

/// Which card of a READ failed: the first it asked for, or one behind cards that fitted.
#[derive(Clone, Copy, Debug, PartialEq, Eq, PartialOrd, Ord)]
pub enum Turn {
    First,
    Later,
    /// Behind cards for more than 60 cells.
    Late,
}

impl Turn {
    pub fn behind(cells: u64) -> Turn {
        match cells {
            0 => Turn::First,
            1..=60 => Turn::Later,
            _ => Turn::Late,
        }
    }
}

/// By how much the end of a block is past 999, or ten digits are past 9999999999 or below 0.
#[derive(Clone, Copy, Debug, PartialEq, Eq, PartialOrd, Ord)]
pub enum Past {
    ByOne,
    Far,
}

/// Which cell of a block is the lowest that is not marked. The first of all comes before the last.
#[derive(Clone, Copy, Debug, PartialEq, Eq, PartialOrd, Ord)]
pub enum Hole {
    First,
    Middle,
    Last,
}

/// How the length of something lent is wrong.
#[derive(Clone, Copy, Debug, PartialEq, Eq, PartialOrd, Ord)]
pub enum Length {
    Short,
    Long,
    /// Twice as long as is due, or three times, and so on.
    Multiple,
}

impl Length {
    /// None for the length that is due.
    pub fn wrong(length: usize, due: usize) -> Option<Length> {
        match length {
            _ if length == due => None,
            _ if length < due => Some(Length::Short),
            _ if length % due == 0 => Some(Length::Multiple),
            _ => Some(Length::Long),
        }
    }
}

/// A mark above 1.
#[derive(Clone, Copy, Debug, PartialEq, Eq, PartialOrd, Ord)]
pub enum Mark {
    Two,
    Three,
    Even,
    Odd,
}

/// A cell's number above the largest word: below 30,000,000,000, or not.
#[derive(Clone, Copy, Debug, PartialEq, Eq, PartialOrd, Ord)]
pub enum Above {
    Near,
    Far,
}

/// Where a reader stands that may not stand there. `first` is the first place of the deck.
#[derive(Clone, Copy, Debug, PartialEq, Eq, PartialOrd, Ord)]
pub enum Astray {
    AtT { first: bool },
    AtCardBeforeT { first: bool },
    Within,
    PastEnd,
}

/// What load and run judge before they begin, in this order.
#[derive(Clone, Copy, Debug, PartialEq, Eq, PartialOrd, Ord)]
pub enum Entry {
    Drum,
    Deck,
    State,
}

/// One line, or part of a line, of the table of stop numbers.
#[derive(Clone, Copy, Debug, PartialEq, Eq, PartialOrd, Ord)]
pub enum Reason {
    UncStop,
    CondStop,
    BudgetUsed,
    DigitsLost,
    DrumLength(Length),
    MarksLength(Length),
    MarkAboveOne(Mark),
    MarkedCellNoWord(Above),
    Deck(Fault),
    StateLength(Length),
    BudgetAbove999999,
    LocationAbove1000,
    BoxAbove999(Field),
    CounterAbove9999,
    ProblemAbove999,
    ModeAbove1,
    TracingAbove1,
    TracingInPlainMode,
    Cell000Unmarked,
    ReaderAstray(Astray),
    FirstOrder000,
    FirstOrderAbove999,
    Location000,
    LocationPast999,
    SumAbove999(Field),
    BlockFrom000,
    BlockBackward,
    BlockTo000,
    /// The source of a block move, at B, or its destination, at C.
    BlockPast999(Field, Past),
    TestOf000,
    ChangeOf000,
    SubroutineAt000,
    /// An address sum would take the ten digits past 9999999999, or below 0.
    DigitsPast(Past),
    OrderUnmarked,
    Unmarked(Field),
    BlockUnmarked,
    SourceUnmarked(Hole),
    NoRoomForTrace,
    NoRoomForPunch,
    NoRoomForDeck,
    NotBuilt,
    NotNumber(Field),
    ZeroDivisor,
    NegativeRoot,
    Range(OutOfRange),
    CardElsewhere(Turn),
    CardPastBlock(Turn),
    NoCard(Turn),
}

impl Reason {
    /// The number that the paper's table gives.
    pub fn number(self) -> u64 {
        use Reason::*;
        match self {
            UncStop => 0,
            CondStop => 1,
            BudgetUsed => 2,
            DigitsLost => 3,
            DrumLength(_) | MarksLength(_) | MarkAboveOne(_) | MarkedCellNoWord(_) => 10,
            Deck(fault) => of_deck(fault),
            StateLength(_) | BudgetAbove999999 | LocationAbove1000 | BoxAbove999(_) => 12,
            CounterAbove9999 | ProblemAbove999 | ModeAbove1 | TracingAbove1 => 12,
            TracingInPlainMode | Cell000Unmarked | ReaderAstray(_) => 12,
            FirstOrder000 | FirstOrderAbove999 => 12,
            Location000 | LocationPast999 | SumAbove999(_) => 20,
            BlockFrom000 | BlockBackward | ChangeOf000 | SubroutineAt000 => 20,
            BlockTo000 | BlockPast999(..) | TestOf000 | DigitsPast(_) => 20,
            OrderUnmarked | Unmarked(_) | BlockUnmarked | SourceUnmarked(_) => 21,
            NoRoomForTrace | NoRoomForPunch | NoRoomForDeck => 22,
            NotBuilt => 23,
            NotNumber(_) => 24,
            ZeroDivisor => 25,
            NegativeRoot => 26,
            Range(_) => 27,
            CardElsewhere(_) | CardPastBlock(_) => 28,
            NoCard(_) => 29,
        }
    }

    /// What was being judged, for a load or a run that was not begun; none for a run that was.
    pub fn entry(self) -> Option<Entry> {
        use Reason::*;
        match self {
            DrumLength(_) | MarksLength(_) | MarkAboveOne(_) | MarkedCellNoWord(_) => {
                Some(Entry::Drum)
            }
            Deck(_) => Some(Entry::Deck),
            StateLength(_) | BudgetAbove999999 | LocationAbove1000 | BoxAbove999(_)
            | CounterAbove9999 | ProblemAbove999 | ModeAbove1 | TracingAbove1
            | TracingInPlainMode | Cell000Unmarked | ReaderAstray(_) => Some(Entry::State),
            _ => None,
        }
    }
}

/// What breaks a rule of cards and decks (W-203).
fn of_deck(fault: Fault) -> u64 {
    use CardFault::*;
    match fault {
        Fault::TooLong => 11,
        Fault::Card(Kind) => 13,
        Fault::Card(CutShort) => 14,
        Fault::Card(NotDigit | NotSign) => 15,
        Fault::Card(Location000 | LastPast999 | FirstOrder000) => 16,
        Fault::SecondT => 17,
        Fault::NoT => 18,
    }
}

impl From<OutOfRange> for Reason {
    fn from(side: OutOfRange) -> Reason {
        Reason::Range(side)
    }
}
