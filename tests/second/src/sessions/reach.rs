//! Everything that a session can reach: the list that the generator aims at and the judge requires.

use crate::model::arithmetic::OutOfRange;
use crate::model::card::CardFault;
use crate::model::deck::Fault;
use crate::model::event::{
    Before, Event, Large, Lie, Loss, Moved, Owned, Sum, Test, Tracing, Way, SHORT,
};
use crate::model::operation::{OfOne, OfTwo};
use crate::model::order::{Change, Code, Second, BUILT};
use crate::model::stop::{Above, Astray, Field, Hole, Length, Mark, Past, Reason, Turn, FIELDS};

pub const TRACINGS: [Tracing; 3] = [Tracing::Plain, Tracing::Off, Tracing::On];

/// The ways in which a completed order of a code can end: where it goes, and whether it stops.
fn ways(code: Code) -> Vec<(Way, bool)> {
    match code {
        Code::CondStop => vec![(Way::ToC, true), (Way::ToC, false)],
        Code::UncStop => vec![(Way::Stays, true)],
        Code::TrSgn => vec![(Way::ToB, false), (Way::ToC, false)],
        Code::TrExp | Code::Loop(_) | Code::TrAddress(_) => {
            vec![(Way::ToC, false), (Way::On, false)]
        }
        Code::Tr | Code::TrSubr => vec![(Way::ToC, false)],
        Code::OfTwo(operation) if operation.is_sum() => vec![(Way::On, true), (Way::On, false)],
        _ => vec![(Way::On, false)],
    }
}

/// The refusals of a code's own line.
fn refusals(code: Code) -> Vec<Reason> {
    use Reason::*;
    match code {
        Code::OfTwo(operation) => {
            let mut reasons = vec![
                Unmarked(Field::A),
                Unmarked(Field::B),
                NotNumber(Field::A),
                NotNumber(Field::B),
            ];
            reasons.extend([Range(OutOfRange::Below), Range(OutOfRange::Above)]);
            if operation == OfTwo::Div {
                reasons.push(ZeroDivisor);
            }
            reasons
        }
        Code::OfOne(OfOne::Sqrt) => vec![Unmarked(Field::B), NotNumber(Field::B), NegativeRoot],
        Code::OfOne(OfOne::Abs) => vec![Unmarked(Field::B), NotNumber(Field::B)],
        Code::Move000 => vec![Unmarked(Field::B)],
        Code::Move => {
            let mut reasons = MOVE_FAULTS.to_vec();
            reasons.extend([Hole::First, Hole::Middle, Hole::Last].map(SourceUnmarked));
            reasons
        }
        Code::TrAddress(_) => vec![TestOf000, Unmarked(Field::A)],
        Code::TrSubr => vec![SubroutineAt000, Unmarked(Field::C)],
        Code::Change(Change::Set, _) => vec![ChangeOf000, Unmarked(Field::B)],
        Code::Change(..) => {
            vec![ChangeOf000, Unmarked(Field::B), DigitsPast(Past::ByOne), DigitsPast(Past::Far)]
        }
        Code::Pch => vec![BlockFrom000, BlockBackward, BlockUnmarked, NoRoomForPunch],
        Code::Read => {
            let mut reasons = vec![BlockFrom000, BlockBackward];
            for turn in [Turn::First, Turn::Later, Turn::Late] {
                reasons.extend([CardElsewhere(turn), CardPastBlock(turn), NoCard(turn)]);
            }
            reasons
        }
        _ => vec![],
    }
}

/// What one order can come to, completed or refused.
pub fn of_orders() -> Vec<Event> {
    let mut events = Vec::new();
    for tracing in TRACINGS {
        for code in BUILT.map(|built| built.code) {
            for (way, stopped) in ways(code) {
                for modified in [false, true] {
                    events.push(Event::Completed { code, way, stopped, tracing, modified });
                }
            }
            // In traced mode PCH refuses nothing.
            if code != Code::Pch || tracing == Tracing::Plain {
                events.extend(refusals(code).into_iter().map(|reason| Event::OrderRefused {
                    code,
                    reason,
                    tracing,
                }));
            }
        }
        let mut early = vec![
            Reason::Location000,
            Reason::LocationPast999,
            Reason::OrderUnmarked,
            Reason::NotBuilt,
        ];
        early.extend(FIELDS.map(Reason::SumAbove999));
        if tracing == Tracing::On {
            early.push(Reason::NoRoomForTrace);
        }
        events.extend(early.into_iter().map(|reason| Event::Refused { reason, tracing }));
    }
    events.extend(sums());
    events.extend(losses());
    events.extend(of_moves());
    events.extend(of_tests());
    events.extend(of_address_sums());
    events
}

/// Every code and every address; but no count lifts an O2 or A of 000 above 999.
fn sums() -> Vec<Event> {
    let mut events = Vec::new();
    for built in BUILT {
        for field in FIELDS {
            if field != Field::A || built.second != Second::Just(0) {
                events.push(Event::SumRefused { code: built.code, field });
            }
        }
    }
    events
}

pub const LOSSES: [Loss; 9] = [
    Loss::JustThree,
    Loss::At999,
    Loss::Into000,
    Loss::OverItself,
    Loss::OverNext,
    Loss::JustTwo,
    Loss::AllGone,
    Loss::BelowRange,
    Loss::OnRun,
];

/// What orders come to that lose digits.
fn losses() -> Vec<Event> {
    let mut events = Vec::new();
    for tracing in TRACINGS {
        for operation in [OfTwo::Add, OfTwo::Sub] {
            events.extend(LOSSES.map(|loss| Event::Lost { loss, operation, tracing }));
        }
    }
    events.extend(of_loss_stops());
    events
}

/// What the stop for lost digits means for the run, and for the one behind it.
pub fn of_loss_stops() -> Vec<Event> {
    let mut events = Vec::new();
    for traced in [false, true] {
        events.extend([false, true].map(|last| Event::StoppedForLoss { last, traced }));
        events.push(Event::WentOnBehindLoss { traced });
    }
    events
}

/// The lines of 20 for a block move.
const MOVE_FAULTS: [Reason; 6] = [
    Reason::BlockPast999(Field::B, Past::ByOne),
    Reason::BlockFrom000,
    Reason::BlockTo000,
    Reason::BlockPast999(Field::C, Past::ByOne),
    Reason::BlockPast999(Field::C, Past::Far),
    Reason::BlockPast999(Field::B, Past::Far),
];

/// What block moves come to, with every overlap of short ones. The ends of the drum are far apart on
/// the list, since probes that share a drum follow each other.
pub fn of_moves() -> Vec<Event> {
    let mut moved = vec![Moved::SourceFrom1, Moved::SourceTo999];
    for words in 1..=SHORT {
        moved.push(Moved::Short { words, by: 0, up: false });
        for by in 1..=words + 1 {
            moved.extend([false, true].map(|up| Moved::Short { words, by, up }));
        }
    }
    moved.extend([Moved::DestinationFrom1, Moved::DestinationTo999, Moved::Long(Lie::Same)]);
    for up in [false, true] {
        let lies = [Lie::Over { up }, Lie::Next { up }, Lie::Apart { up }];
        moved.extend(lies.map(Moved::Long));
    }
    moved.extend([Owned::All, Owned::Part, Owned::None].map(Moved::Destination));
    moved.extend([Moved::MinusZero, Moved::NoNumber]);
    moved.extend([Moved::OverItself, Moved::OverNext, Moved::FromItself]);
    moved.extend([false, true].map(|marked| Moved::ShowsA { marked }));
    moved.extend([Moved::FromMove000, Moved::AsMove000]);
    let mut events: Vec<Event> = moved.into_iter().map(Event::Moved).collect();
    for reason in MOVE_FAULTS {
        events.extend([false, true].map(|unmarked| Event::MoveRefused { reason, unmarked }));
    }
    events
}

pub const TESTS: [Test; 9] = [
    Test::OwnCell,
    Test::Plus,
    Test::Minus,
    Test::MinusZero,
    Test::NoNumber,
    Test::LiveBox,
    Test::B000,
    Test::C000,
    Test::At999,
];

/// What TR A, TR B and TR C come to, each of them on equal and on unequal.
pub fn of_tests() -> Vec<Event> {
    let mut events = Vec::new();
    for field in FIELDS {
        for equal in [false, true] {
            events.extend(TESTS.map(|test| Event::Tested { field, equal, test }));
        }
        events.push(Event::Tested { field, equal: true, test: Test::OnlyNamed });
        for other in FIELDS.into_iter().filter(|&other| other != field) {
            events.push(Event::Tested { field, equal: false, test: Test::Other(other) });
        }
    }
    events
}

pub const SUMS: [Change; 2] = [Change::Add, Change::Sub];

/// What ADD and SUB of an address come to. Probes that want cell 999 are far apart, as for block moves.
pub fn of_address_sums() -> Vec<Event> {
    let mut events = vec![Event::SumWithin(true), Event::SumWithin(false)];
    for change in SUMS {
        for field in FIELDS {
            let sums = sums_of(change, field);
            let summed = |(done, sum)| Event::Summed { change, field, done, sum };
            events.extend(sums.into_iter().map(summed));
            events.push(Event::SumUntold { change, field });
        }
        events.push(Event::DoneAsCarried(change));
    }
    for traced in [false, true] {
        events.extend([false, true].map(|last| Event::DigitsRefused { last, traced }));
    }
    events
}

/// Done or not, and what the sum has about it.
fn sums_of(change: Change, field: Field) -> Vec<(bool, Sum)> {
    let adds = change == Change::Add;
    let mut sums = vec![(true, Sum::At999)];
    for minus in [false, true] {
        sums.extend((0..=field as u64 + 1).map(|parts| (true, Sum::Carried { parts, minus })));
        sums.push((true, Sum::AtEnd { minus }));
    }
    sums.extend([(false, Sum::At999), (true, Sum::C000)]);
    sums.extend([false, true].map(|minus| (false, Sum::Refused { minus })));
    sums.extend([true, false].map(|done| (done, Sum::C999)));
    sums.extend([(true, Sum::Number), (true, Sum::Cell999), (true, Sum::NoNumber)]);
    // Minus zero can only be added to.
    sums.extend([(adds, Sum::MinusZero), (true, Sum::NextCode)]);
    sums.extend([true, false].map(|done| (done, Sum::LiveBox)));
    sums.extend([(true, Sum::OwnCell { within: true }), (false, Sum::Cell999)]);
    // The O1 of these orders is 0: it has nothing to lend, and nothing passes 9.
    if adds || field != Field::A {
        sums.push((true, Sum::OwnCell { within: false }));
    }
    if !adds {
        sums.push((false, Sum::OwnCell { within: false }));
    }
    sums.extend([true, false].map(|done| (done, Sum::BoxB)));
    sums.extend([true, false].map(|done| (done, Sum::BoxC)));
    sums
}

pub const FAULTS: [Fault; 10] = [
    Fault::TooLong,
    Fault::NoT,
    Fault::SecondT,
    Fault::Card(CardFault::Kind),
    Fault::Card(CardFault::CutShort),
    Fault::Card(CardFault::NotDigit),
    Fault::Card(CardFault::NotSign),
    Fault::Card(CardFault::Location000),
    Fault::Card(CardFault::LastPast999),
    Fault::Card(CardFault::FirstOrder000),
];

/// The numbers of these faults.
const DECK_NUMBERS: [u64; 7] = [11, 13, 14, 15, 16, 17, 18];

pub const LENGTHS: [Length; 3] = [Length::Short, Length::Long, Length::Multiple];
const MARKS: [Mark; 4] = [Mark::Two, Mark::Three, Mark::Even, Mark::Odd];
const ASTRAY: [Astray; 6] = [
    Astray::AtT { first: true },
    Astray::AtT { first: false },
    Astray::AtCardBeforeT { first: true },
    Astray::AtCardBeforeT { first: false },
    Astray::Within,
    Astray::PastEnd,
];

/// The lines of 12 that a state of good length, a budget and a mark can break.
pub fn lines_of_12() -> Vec<Reason> {
    let mut lines = vec![
        Reason::BudgetAbove999999,
        Reason::LocationAbove1000,
        Reason::CounterAbove9999,
        Reason::ProblemAbove999,
        Reason::ModeAbove1,
        Reason::TracingAbove1,
        Reason::TracingInPlainMode,
        Reason::Cell000Unmarked,
    ];
    lines.extend(FIELDS.map(Reason::BoxAbove999));
    lines.extend(ASTRAY.map(Reason::ReaderAstray));
    lines
}

/// Every line of 10.
pub fn lines_of_10() -> Vec<Reason> {
    let mut lines = Vec::new();
    lines.extend(LENGTHS.map(Reason::DrumLength));
    lines.extend(LENGTHS.map(Reason::MarksLength));
    lines.extend(MARKS.map(Reason::MarkAboveOne));
    lines.extend([Above::Near, Above::Far].map(Reason::MarkedCellNoWord));
    lines
}

/// What a load and a run refuse alike.
fn of_both() -> Vec<Reason> {
    let mut both = lines_of_10();
    both.extend(FAULTS.map(Reason::Deck));
    both.extend(LENGTHS.map(Reason::StateLength));
    both
}

/// What a call as a whole can come to.
pub fn of_calls() -> Vec<Event> {
    let mut events: Vec<Event> = of_both().into_iter().map(Event::LoadRefused).collect();
    for idle in [false, true] {
        for reason in of_both().into_iter().chain(lines_of_12()) {
            if !idle || reason != Reason::BudgetAbove999999 {
                events.push(Event::RunRefused { reason, idle });
            }
        }
    }
    for number in DECK_NUMBERS {
        for run in [false, true] {
            events.extend([Event::DeckUntold { number, run }, Event::StateUntold { number, run }]);
        }
    }
    events.push(Event::RunRefusedForSeveral);
    for cell_000 in [Before::Unmarked, Before::PlusZero, Before::OtherWord] {
        events.extend([false, true].map(|traced| Event::Loaded { traced, cell_000 }));
    }
    events.extend([false, true].map(|zero| Event::BudgetUsed { zero }));
    events
}

/// What is too large for chance to come to.
pub const LARGE: [Large; 13] = [
    Large::ReadOverItself,
    Large::ReadOfMany,
    Large::ReadOfHundreds,
    Large::ReadFar,
    Large::PchOverItself,
    Large::PchOfHundreds,
    Large::PchWraps,
    Large::MoveUp,
    Large::MoveDown,
    Large::MoveOfAll,
    Large::TracedOutput,
    Large::PunchedOutput,
    Large::CountAbove1000,
];

pub fn all() -> Vec<Event> {
    let large = LARGE.map(Event::Large);
    of_orders().into_iter().chain(of_calls()).chain(large).collect()
}

#[cfg(test)]
mod tests {
    use super::*;

    #[test]
    fn nothing_is_listed_twice() {
        let all = all();
        let different: std::collections::BTreeSet<&Event> = all.iter().collect();
        assert_eq!(different.len(), all.len());
    }
}
