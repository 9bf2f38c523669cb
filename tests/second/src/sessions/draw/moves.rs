//! Aims at block moves that are done: how the blocks lie, on the drum and to each other, and what their
//! cells hold.

use super::aim::Aimed;
use super::draft::Draft;
use super::ends::KEPT;
use super::parts::{built, strange_word, tempt};
use crate::chance::Chance;
use crate::decks::build::any_word;
use crate::model::event::{Lie, Moved, Owned, SHORT};
use crate::model::order::{Code, Order};
use crate::model::word::{Word, MINUS};

/// So many words from B on, which go to C.
#[derive(Clone, Copy)]
struct Blocks {
    words: u64,
    b: u64,
    c: u64,
}

impl Blocks {
    /// The lower one begins at a start, and the other so many cells above it; `up`: that is C.
    fn from(start: u64, words: u64, by: u64, up: bool) -> Blocks {
        let (b, c) = if up { (start, start + by) } else { (start + by, start) };
        Blocks { words, b, c }
    }

    /// In cells that nothing else uses.
    fn free(words: u64, by: u64, up: bool, draft: &mut Draft, chance: &mut Chance) -> Blocks {
        Blocks::from(draft.free(words + by, chance), words, by, up)
    }

    fn order(self) -> Order {
        built(Code::Move, self.words, self.b, self.c)
    }
}

/// Words and a distance: mostly a few words, which share some cells or are neighbours.
fn any_size(chance: &mut Chance) -> (u64, u64) {
    let words =
        if chance.one_in(20) { chance.between(SHORT + 1, 60) } else { chance.between(1, SHORT) };
    (words, chance.below(words + 3))
}

/// Any word, and more often than others one that is no number.
pub fn word(chance: &mut Chance) -> Word {
    if chance.one_in(5) {
        strange_word(chance)
    } else {
        any_word(chance)
    }
}

/// Marks the source, and of the destination's other cells all, some or none.
fn fill(blocks: Blocks, owned: Owned, draft: &mut Draft, chance: &mut Chance) {
    let Blocks { words, b, c } = blocks;
    for cell in b..b + words {
        draft.put(cell, word(chance));
    }
    let others: Vec<u64> = (c..c + words).filter(|cell| !(b..b + words).contains(cell)).collect();
    // Of a part this cell is left unmarked, and the next one is marked.
    let none = chance.below(words) as usize % others.len().max(1);
    for (at, &cell) in others.iter().enumerate() {
        let marked = match owned {
            Owned::All => true,
            Owned::None => false,
            Owned::Part if at == none => false,
            Owned::Part if at == (none + 1) % others.len() => true,
            Owned::Part => chance.percent(50),
        };
        if marked {
            draft.put(cell, word(chance));
        } else {
            tempt(cell, draft, chance);
        }
    }
}

/// A block move that is done.
pub fn any(draft: &mut Draft, chance: &mut Chance) -> Aimed {
    let (words, by) = any_size(chance);
    let blocks = Blocks::free(words, by, chance.percent(50), draft, chance);
    let owned = chance.pick(&[Owned::All, Owned::Part, Owned::None]);
    fill(blocks, owned, draft, chance);
    Aimed::of(blocks.order())
}

pub fn aim(moved: Moved, draft: &mut Draft, chance: &mut Chance) -> Aimed {
    match moved {
        Moved::OverItself | Moved::OverNext | Moved::FromItself => among(moved, draft, chance),
        Moved::ShowsA { marked } => shows_a(marked, draft, chance),
        Moved::FromMove000 | Moved::AsMove000 => from_move_000(draft, chance),
        _ => {
            let blocks = blocks(moved, draft, chance);
            let owned = match moved {
                Moved::Destination(owned) => owned,
                _ => chance.pick(&[Owned::All, Owned::Part, Owned::None]),
            };
            fill(blocks, owned, draft, chance);
            let cell = blocks.b + chance.below(blocks.words);
            match moved {
                Moved::MinusZero => draft.put(cell, Word { minus: true, digits: 0 }),
                Moved::NoNumber => draft.put(cell, no_number(chance)),
                _ => {}
            }
            Aimed::of(blocks.order())
        }
    }
}

/// Neither a number nor minus zero.
pub fn no_number(chance: &mut Chance) -> Word {
    let digits = chance.pick_or(&[1, 99, 999_999_999], 1, MINUS / 10 - 1);
    Word { minus: chance.percent(50), digits }
}

fn blocks(moved: Moved, draft: &mut Draft, chance: &mut Chance) -> Blocks {
    let (words, by) = any_size(chance);
    let (few, up) = (chance.between(1, SHORT), chance.percent(50));
    let within = chance.below(KEPT - few + 1);
    match moved {
        Moved::Short { words, by, up } => {
            let by = if by > words { words + chance.between(1, 9) } else { by };
            Blocks::free(words, by, up, draft, chance)
        }
        Moved::Long(lie) => {
            let words = chance.between(SHORT + 1, 40);
            let (by, up) = match lie {
                Lie::Same => (0, up),
                Lie::Over { up } => (chance.between(1, words - 1), up),
                Lie::Next { up } => (words, up),
                Lie::Apart { up } => (words + chance.between(1, 9), up),
            };
            Blocks::free(words, by, up, draft, chance)
        }
        Moved::SourceFrom1 => Blocks::from(1, few, within, true),
        Moved::DestinationFrom1 => Blocks::from(1, few, within, false),
        Moved::SourceTo999 => Blocks::from(1_000 - few - within, few, within, false),
        Moved::DestinationTo999 => Blocks::from(1_000 - few - within, few, within, true),
        Moved::Destination(Owned::None) => {
            Blocks::free(few, few + chance.below(3), up, draft, chance)
        }
        Moved::Destination(Owned::Part) => {
            let words = few.max(2);
            Blocks::free(words, chance.between(1, words + 2), up, draft, chance)
        }
        _ => Blocks::free(words, by, up, draft, chance),
    }
}

/// The order lies in one of its blocks, or just before a cell of its destination. What comes there is
/// an order that can be done, and the budget goes that far.
fn among(moved: Moved, draft: &mut Draft, chance: &mut Chance) -> Aimed {
    let words = chance.between(1, SHORT);
    let (by, up) = (chance.below(words + 3), chance.percent(50));
    let start = draft.free(words + by + 2, chance);
    let blocks = Blocks::from(start + 1, words, by, up);
    let owned = chance.pick(&[Owned::All, Owned::Part, Owned::None]);
    fill(blocks, owned, draft, chance);
    let Blocks { b, c, .. } = blocks;
    let at = chance.below(words);
    let location = match moved {
        Moved::OverItself => c + at,
        Moved::OverNext => c + at - 1,
        _ => b + at,
    };
    if (c..c + words).contains(&(location + 1)) {
        let code = chance.pick(&[Code::Noop, Code::UncStop, Code::Tr, Code::Move000]);
        let next = built(code, 0, b + chance.below(words), start + chance.below(words));
        draft.put_order(b + (location + 1 - c), next);
    }
    let spare = Some(chance.between(1, 3));
    Aimed { location: Some(location), spare, ..Aimed::of(blocks.order()) }
}

/// As many words as the number of a cell that is marked, or that is kept unmarked.
fn shows_a(marked: bool, draft: &mut Draft, chance: &mut Chance) -> Aimed {
    let drawn = (0..20).map(|_| chance.between(1, 60)).find(|&cell| draft.take(cell, 1));
    let words =
        drawn.or_else(|| (1..1_000).find(|&cell| draft.take(cell, 1))).expect("a free cell");
    if marked {
        let Word { minus, digits } = word(chance);
        draft.put(words, Word { minus, digits: digits.max(1) });
    } else {
        tempt(words, draft, chance);
    }
    let blocks = Blocks::free(words, chance.below(words + 3), chance.percent(50), draft, chance);
    fill(blocks, chance.pick(&[Owned::All, Owned::None]), draft, chance);
    Aimed::of(blocks.order())
}

/// A minus order that is MOVE 000 as it is stored: done with a count for A, and again with a clear
/// box. Below the blocks there are cells for that.
fn from_move_000(draft: &mut Draft, chance: &mut Chance) -> Aimed {
    let words = chance.between(1, SHORT);
    let (by, up) = (chance.below(words + 3), chance.percent(50));
    let start = draft.free(words + by + 2, chance);
    let blocks = Blocks::from(start + 2, words, by, up);
    fill(blocks, chance.pick(&[Owned::All, Owned::None]), draft, chance);
    let counts = [words, chance.pick(&[0, 0, 1, 2]), chance.pick(&[0, 0, 1, 2])];
    draft.put(blocks.b - counts[1], word(chance));
    let again = Some([0; 3]);
    Aimed { counts: Some(counts), modified: Some(true), again, ..Aimed::of(blocks.order()) }
}
