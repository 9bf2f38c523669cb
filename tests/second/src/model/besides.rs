//! What is told besides of block moves and of TR A, TR B and TR C, for counting what was covered.

use super::card::LAST_CELL;
use super::drum::Drum;
use super::event::{Lie, Moved, Owned, Test, SHORT};
use super::order::{Code, Order};
use super::orders::block_move::faults;
use super::state::State;
use super::stop::{Field, Reason, FIELDS};
use super::word::Word;

/// An order as done, and the machine before it.
pub struct Scene<'a> {
    pub stored: Order,
    pub order: Order,
    pub drum: &'a Drum<'a>,
    pub state: &'a State,
}

pub fn that_hold<T>(told: Vec<(bool, T)>) -> Vec<T> {
    told.into_iter().filter(|(holds, _)| *holds).map(|(_, thing)| thing).collect()
}

pub const MINUS_ZERO: Word = Word { minus: true, digits: 0 };

pub fn is_no_number(word: Word) -> bool {
    word != MINUS_ZERO && word.number().is_none()
}

/// Of a move that is done, of a block or not.
pub fn of_move(code: Code, scene: &Scene) -> Vec<Moved> {
    let Scene { stored, order, drum, state } = *scene;
    match code {
        Code::Move => {}
        Code::Move000 if stored.minus => return vec![Moved::AsMove000],
        _ => return vec![],
    }
    let (source, destination) = (order.b..order.b + order.a, order.c..order.c + order.a);
    let words: Vec<Word> = source.clone().filter_map(|cell| drum.word(cell)).collect();
    let marked = destination.clone().filter(|&cell| drum.word(cell).is_some()).count() as u64;
    let owned = match marked {
        0 => Owned::None,
        _ if marked == order.a => Owned::All,
        _ => Owned::Part,
    };
    let (by, up) = (order.b.abs_diff(order.c), order.c > order.b);
    let shape = if order.a > SHORT {
        Moved::Long(lie(by, up, order.a))
    } else {
        Moved::Short { words: order.a, by: by.min(order.a + 1), up }
    };
    let (own, traced) = (state.location, state.tracing_is_on());
    let a_word = drum.word(order.a);
    that_hold(vec![
        (true, shape),
        (true, Moved::Destination(owned)),
        (source.start == 1, Moved::SourceFrom1),
        (destination.start == 1, Moved::DestinationFrom1),
        (source.end == LAST_CELL + 1, Moved::SourceTo999),
        (destination.end == LAST_CELL + 1, Moved::DestinationTo999),
        (words.contains(&MINUS_ZERO), Moved::MinusZero),
        (words.iter().any(|&word| is_no_number(word)), Moved::NoNumber),
        (destination.contains(&own), Moved::OverItself),
        (destination.contains(&(own + 1)), Moved::OverNext),
        (source.contains(&own), Moved::FromItself),
        (
            traced && a_word.is_some_and(|word| word != Word::PLUS_ZERO),
            Moved::ShowsA { marked: true },
        ),
        (traced && a_word.is_none(), Moved::ShowsA { marked: false }),
        (stored.a == 0, Moved::FromMove000),
    ])
}

fn lie(by: u64, up: bool, words: u64) -> Lie {
    match by {
        0 => Lie::Same,
        _ if by < words => Lie::Over { up },
        _ if by == words => Lie::Next { up },
        _ => Lie::Apart { up },
    }
}

/// The one line of 20 that speaks against a block move, and whether a cell of its source is unmarked
/// as well.
pub fn of_refused_move(order: Order, drum: &Drum) -> Option<(Reason, bool)> {
    let [reason] = faults(order)[..] else { return None };
    let mut source = order.b..(order.b + order.a).min(LAST_CELL + 1);
    Some((reason, source.any(|cell| drum.word(cell).is_none())))
}

/// Of TR A, TR B or TR C that is done; whether B is the named address.
pub fn of_test(field: Field, scene: &Scene) -> (bool, Vec<Test>) {
    let Scene { order, drum, state, .. } = *scene;
    let word = drum.shown(order.a);
    let tested = Order::of_word(word);
    let is_b = |field: Field| tested.address(field) == order.b;
    let equal = is_b(field);
    let others: Vec<Field> = FIELDS.into_iter().filter(|&other| other != field).collect();
    let mut told = vec![
        (order.a == state.location, Test::OwnCell),
        (equal && !others.iter().any(|&other| is_b(other)), Test::OnlyNamed),
        (!word.minus, Test::Plus),
        (word.minus && word.digits != 0, Test::Minus),
        (word == MINUS_ZERO, Test::MinusZero),
        (is_no_number(word), Test::NoNumber),
        (word.minus && state.counts[field as usize] > 0, Test::LiveBox),
        (order.b == 0, Test::B000),
        (order.c == 0, Test::C000),
        (state.location == LAST_CELL, Test::At999),
    ];
    told.extend(others.into_iter().map(|other| (!equal && is_b(other), Test::Other(other))));
    (equal, that_hold(told))
}
