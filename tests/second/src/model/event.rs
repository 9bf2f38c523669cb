//! What a witness of the model is told, for counting what was covered.

use super::operation::OfTwo;
use super::order::{Change, Code};
use super::stop::{Field, Reason};

/// Where control goes after an order.
#[derive(Clone, Copy, Debug, PartialEq, Eq, PartialOrd, Ord)]
pub enum Way {
    /// To the next location.
    On,
    ToB,
    ToC,
    /// The location stays.
    Stays,
}

/// How the machine stood towards tracing when an order was done.
#[derive(Clone, Copy, Debug, PartialEq, Eq, PartialOrd, Ord)]
pub enum Tracing {
    Plain,
    /// Traced mode, tracing off.
    Off,
    /// Traced mode, tracing on: the order had its trace card.
    On,
}

/// What cell 000 was before a load.
#[derive(Clone, Copy, Debug, PartialEq, Eq, PartialOrd, Ord)]
pub enum Before {
    Unmarked,
    PlusZero,
    OtherWord,
}

/// Orders and runs of an extent that chance would hardly come to.
#[derive(Clone, Copy, Debug, PartialEq, Eq, PartialOrd, Ord)]
pub enum Large {
    /// A READ whose block holds its own order.
    ReadOverItself,
    /// Of more than 60 cells.
    ReadOfMany,
    /// Of more than 255 cells.
    ReadOfHundreds,
    /// With a first card past place 40,000.
    ReadFar,
    /// A PCH whose block holds its own order.
    PchOverItself,
    /// Of more than 255 cells.
    PchOfHundreds,
    /// After 9999 comes 0000 within its cards, and not before the first.
    PchWraps,
    /// A block move of more than 255 words onto a part of its own source, upward or downward.
    MoveUp,
    MoveDown,
    /// A block move of all 999 cells.
    MoveOfAll,
    /// A run that writes more than 65,535 bytes, as trace cards or as punched ones.
    TracedOutput,
    PunchedOutput,
    /// A run of more than 1,000 orders.
    CountAbove1000,
}

/// What a sum or a difference comes to that loses digits.
#[derive(Clone, Copy, Debug, PartialEq, Eq, PartialOrd, Ord)]
pub enum Loss {
    /// It stops, and three digits have gone.
    JustThree,
    /// It stops at 999, so that the next location is 1000.
    At999,
    /// It stops, and C is 000.
    Into000,
    /// It stops, and the result lies over the order itself.
    OverItself,
    /// It stops, and the result is the next order.
    OverNext,
    /// It does not stop with the switch on STOP: two digits have gone.
    JustTwo,
    /// Nor does it here: the result is zero, and no operand is.
    AllGone,
    /// It is refused with the switch on STOP: more than two digits go, but the result is below the
    /// range.
    BelowRange,
    /// It does not stop with the switch on RUN, though more than two digits have gone.
    OnRun,
}

/// A block move of so few words is a short one.
pub const SHORT: u64 = 6;

/// How the two blocks of a long move lie to each other. `up`: C is above B.
#[derive(Clone, Copy, Debug, PartialEq, Eq, PartialOrd, Ord)]
pub enum Lie {
    Same,
    /// They share cells.
    Over {
        up: bool,
    },
    /// The one begins where the other ends.
    Next {
        up: bool,
    },
    Apart {
        up: bool,
    },
}

/// How much of a destination is marked before the move.
#[derive(Clone, Copy, Debug, PartialEq, Eq, PartialOrd, Ord)]
pub enum Owned {
    All,
    Part,
    None,
}

/// What a block move that is done has about it.
#[derive(Clone, Copy, Debug, PartialEq, Eq, PartialOrd, Ord)]
pub enum Moved {
    /// From B to C are so many cells. As many as there are words, and the blocks are neighbours; one
    /// more stands for all that are farther apart.
    Short {
        words: u64,
        by: u64,
        up: bool,
    },
    Long(Lie),
    SourceFrom1,
    DestinationFrom1,
    SourceTo999,
    DestinationTo999,
    /// Among the words: minus zero, another word that is no number.
    MinusZero,
    NoNumber,
    Destination(Owned),
    /// The destination holds the order itself, or the next one; the source holds the order.
    OverItself,
    OverNext,
    FromItself,
    /// The trace card shows a word in cell A that is not plus zero, or the cell is not marked.
    ShowsA {
        marked: bool,
    },
    /// The order is stored as MOVE 000, and the loop box has made it.
    FromMove000,
    /// It is not a block move: such an order with no count to add to A.
    AsMove000,
}

/// What TR A, TR B or TR C has about it that is done.
#[derive(Clone, Copy, Debug, PartialEq, Eq, PartialOrd, Ord)]
pub enum Test {
    /// A is the order's own cell.
    OwnCell,
    /// B is the named address, and none of the other two.
    OnlyNamed,
    /// B is this address, and not the named one.
    Other(Field),
    /// The word at A is plus or minus; minus zero; another word that is no number.
    Plus,
    Minus,
    MinusZero,
    NoNumber,
    /// It is minus, and the loop box has a count for the named address.
    LiveBox,
    /// B or C is 000.
    B000,
    C000,
    /// The order is at 999.
    At999,
}

/// What ADD or SUB of an address has about it that is done, or refused for the ten digits.
#[derive(Clone, Copy, Debug, PartialEq, Eq, PartialOrd, Ord)]
pub enum Sum {
    /// It is done, and changes so many parts before the address: addresses, and O1 before A.
    Carried {
        parts: u64,
        minus: bool,
    },
    /// It is done by a C other than 000, and leaves 9999999999 or ten zeros.
    AtEnd {
        minus: bool,
    },
    Refused {
        minus: bool,
    },
    C000,
    C999,
    /// B is the order's own cell. `within`: address and C stay in 000 to 999.
    OwnCell {
        within: bool,
    },
    /// B is the next order, and its O1 becomes another.
    NextCode,
    /// The word at B is a number; neither that nor minus zero.
    Number,
    NoNumber,
    /// It is minus zero, and C is not 000.
    MinusZero,
    /// The order is at 999, or B is 999.
    At999,
    Cell999,
    /// The loop box has made the order's B, or its C.
    BoxB,
    BoxC,
    /// The word at B is minus, and the loop box has a count for the named address.
    LiveBox,
}

#[derive(Clone, Copy, Debug, PartialEq, Eq, PartialOrd, Ord)]
pub enum Event {
    Loaded {
        traced: bool,
        cell_000: Before,
    },
    LoadRefused(Reason),
    /// Told only of lines that hold alone, when several of one number could hold at once. `idle`:
    /// with a budget of 0.
    RunRefused {
        reason: Reason,
        idle: bool,
    },
    RunRefusedForSeveral,
    /// Told besides, of a call that is refused with 10: the deck breaks the rule of this number too.
    /// `run`: the call is a run, and not a load.
    DeckUntold {
        number: u64,
        run: bool,
    },
    /// Told besides, of a call that is refused with this number of its deck: with a good deck it would
    /// be refused with 12.
    StateUntold {
        number: u64,
        run: bool,
    },
    /// `modified`: the loop box made the order as done another than the order as stored.
    Completed {
        code: Code,
        way: Way,
        stopped: bool,
        tracing: Tracing,
        modified: bool,
    },
    /// Before the code was looked at, or with a code that is not built.
    Refused {
        reason: Reason,
        tracing: Tracing,
    },
    /// Told besides, of a sum above 999: the code as stored, and the address, used or not.
    SumRefused {
        code: Code,
        field: Field,
    },
    OrderRefused {
        code: Code,
        reason: Reason,
        tracing: Tracing,
    },
    BudgetUsed {
        zero: bool,
    },
    /// Told besides.
    Lost {
        loss: Loss,
        operation: OfTwo,
        tracing: Tracing,
    },
    /// Told besides; `last`: by the last order of the budget.
    StoppedForLoss {
        last: bool,
        traced: bool,
    },
    /// Told besides, of a run that does orders behind one that was stopped for lost digits.
    WentOnBehindLoss {
        traced: bool,
    },
    /// Told besides.
    Moved(Moved),
    /// Told besides, of a block move that one line of 20 alone speaks against; `unmarked`: so does 21.
    MoveRefused {
        reason: Reason,
        unmarked: bool,
    },
    /// Told besides.
    Tested {
        field: Field,
        equal: bool,
        test: Test,
    },
    /// Told besides.
    Summed {
        change: Change,
        field: Field,
        done: bool,
        sum: Sum,
    },
    /// Told besides, of each ADD and SUB of an address with a word at B: address and C stay in 000 to
    /// 999, or not.
    SumWithin(bool),
    /// Told besides, of one with an unmarked B: 20 would be told of what lies there.
    SumUntold {
        change: Change,
        field: Field,
    },
    /// Told besides, of an order that is done behind one that changed its O1 so.
    DoneAsCarried(Change),
    /// Told besides, of 20 for the ten digits; `last`: by the last order of the budget.
    DigitsRefused {
        last: bool,
        traced: bool,
    },
    /// Told besides.
    Large(Large),
}
