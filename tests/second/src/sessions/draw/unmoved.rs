//! Aims at block moves that are refused: blocks that leave the drum, and sources with a hole.

use super::aim::Aimed;
use super::draft::Draft;
use super::ends::KEPT;
use super::moves::word;
use super::parts::{any_address, built};
use crate::chance::Chance;
use crate::model::order::Code;
use crate::model::stop::{Field, Hole, Past, Reason};

/// A block move that is refused for this reason, and perhaps for others that are told later.
pub fn refused(reason: Reason, draft: &mut Draft, chance: &mut Chance) -> Aimed {
    if let Reason::SourceUnmarked(hole) = reason {
        return unmarked(hole, draft, chance);
    }
    // A source with all cells marked is short of room at the ends of the drum.
    let at_end = matches!(reason, Reason::BlockFrom000 | Reason::BlockPast999(Field::B, _));
    let mut aimed = refused_alone(reason, at_end || chance.percent(50), draft, chance);
    if chance.one_in(4) && aimed.order.a > 1 {
        match reason {
            Reason::BlockFrom000 => aimed.order.c = chance.pick(&[0, 999]),
            Reason::BlockTo000 => aimed.order.b = 999,
            Reason::BlockPast999(Field::B, _) => aimed.order.c = 999,
            _ => {}
        }
    }
    aimed
}

/// A block move that one line of 20 alone speaks against; `unmarked`: so does 21.
pub fn refused_alone(
    reason: Reason,
    unmarked: bool,
    draft: &mut Draft,
    chance: &mut Chance,
) -> Aimed {
    let (words, b, c) = match reason {
        Reason::BlockFrom000 => {
            let words = source_from_000(unmarked, draft, chance);
            (words, 0, fitting(words, chance))
        }
        Reason::BlockPast999(Field::B, past) => {
            let b = source_to_999(unmarked, draft, chance);
            let words = words_past(b, past, chance);
            (words, b, fitting(words, chance))
        }
        Reason::BlockPast999(_, past) => {
            let words = chance.between(3, 9);
            let c = match past {
                Past::ByOne => 1_001 - words,
                Past::Far => chance.between(1_002 - words, 999),
            };
            (words, source(words, unmarked, draft, chance), c)
        }
        _ => {
            let words = chance.between(1, 9);
            (words, source(words, unmarked, draft, chance), 0)
        }
    };
    Aimed::of(built(Code::Move, words, b, c))
}

/// Where a block of so many words may begin.
fn fitting(words: u64, chance: &mut Chance) -> u64 {
    chance.pick_or(&[1, 1_000 - words], 1, 1_000 - words)
}

/// The words of a block from 000 on. Without a hole it lies in the cells that are kept.
fn source_from_000(unmarked: bool, draft: &mut Draft, chance: &mut Chance) -> u64 {
    if unmarked {
        let hole = (1..1_000).find(|&cell| draft.take(cell, 1)).expect("a free cell");
        return chance.pick_or(&[hole + 1, hole + 2, 999], hole + 1, 999);
    }
    let words = chance.between(1, KEPT);
    for cell in 1..words {
        draft.put(cell, word(chance));
    }
    words
}

/// Where a block begins that holds 999. Without a hole it lies in the cells that are kept.
fn source_to_999(unmarked: bool, draft: &mut Draft, chance: &mut Chance) -> u64 {
    if unmarked {
        let hole = (1..1_000).rev().find(|&cell| draft.take(cell, 1)).expect("a free cell");
        return chance.pick_or(&[hole, hole - 1, 3], 3, hole);
    }
    let start = 1_000 - chance.between(1, KEPT);
    for cell in start..1_000 {
        draft.put(cell, word(chance));
    }
    start
}

/// So many that a block from B on ends past 999.
fn words_past(b: u64, past: Past, chance: &mut Chance) -> u64 {
    match past {
        Past::ByOne => 1_001 - b,
        Past::Far => chance.pick_or(&[1_002 - b], 1_002 - b, 999),
    }
}

/// A block of cells of its own, with a hole or without.
fn source(words: u64, unmarked: bool, draft: &mut Draft, chance: &mut Chance) -> u64 {
    let b = draft.free(words, chance);
    for cell in b..b + words {
        draft.put(cell, word(chance));
    }
    if unmarked {
        draft.marks.remove(&(b + chance.below(words)));
    }
    b
}

/// The lowest cell without a mark is the first one of the source, the last one, or between.
fn unmarked(hole: Hole, draft: &mut Draft, chance: &mut Chance) -> Aimed {
    let (words, at) = match hole {
        Hole::First => (chance.between(1, 9), 0),
        Hole::Middle => {
            let words = chance.between(3, 9);
            (words, chance.between(1, words - 2))
        }
        Hole::Last => {
            let words = chance.between(2, 9);
            (words, words - 1)
        }
    };
    let b = source(words, false, draft, chance);
    for cell in b + at..b + words {
        if cell == b + at || chance.one_in(4) {
            draft.marks.remove(&cell);
        }
    }
    let near = (b + chance.below(2 * words)).saturating_sub(words);
    let c = if chance.percent(50) { near } else { any_address(chance) };
    Aimed::of(built(Code::Move, words, b, c.clamp(1, 1_000 - words)))
}
