//! Cells and orders that the aims are made of.

use super::draft::Draft;
use crate::chance::Chance;
use crate::decks::build::any_word;
use crate::model::order::{code, Code, Order, BUILT};
use crate::model::word::Word;
use crate::numbers::stranger;

/// An order of a built code with these addresses.
pub fn built(wanted: Code, a: u64, b: u64, c: u64) -> Order {
    let built = BUILT.into_iter().find(|built| built.code == wanted).expect("a built code");
    Order { minus: false, o1: built.o1, a: built.a(a), b, c }
}

/// Any address, the ends more often than others.
pub fn any_address(chance: &mut Chance) -> u64 {
    match chance.below(8) {
        0 => chance.pick(&[0, 1, 998, 999]),
        _ => chance.below(1_000),
    }
}

/// A cell that is not marked, holding something that looks good half of the time.
pub fn unmarked(draft: &mut Draft, chance: &mut Chance) -> u64 {
    let cell = draft.free(1, chance);
    tempt(cell, draft, chance);
    cell
}

/// Half of the time lets an unmarked cell hold something that looks good.
pub fn tempt(cell: u64, draft: &mut Draft, chance: &mut Chance) {
    if chance.percent(50) {
        let tempting = chance.pick(&[454_000_000, 1_000_000_050, 203_000_001, 0]);
        draft.values.insert(cell, tempting);
    }
}

pub fn marked(word: Word, draft: &mut Draft, chance: &mut Chance) -> u64 {
    draft.free_word(word, chance)
}

/// A word, but not a number.
pub fn strange_word(chance: &mut Chance) -> Word {
    loop {
        if let Some(word) = Word::of_cell(stranger(chance)) {
            return word;
        }
    }
}

/// What a stop may show: a marked cell, an unmarked one, or 000.
pub fn shown_cell(draft: &mut Draft, chance: &mut Chance) -> u64 {
    match chance.below(4) {
        0 => 0,
        1 => unmarked(draft, chance),
        _ => marked(any_word(chance), draft, chance),
    }
}

/// Where a result may go: 000, an unmarked cell, a marked one.
pub fn result_cell(draft: &mut Draft, chance: &mut Chance) -> u64 {
    match chance.below(4) {
        0 => 0,
        1 => marked(any_word(chance), draft, chance),
        _ => unmarked(draft, chance),
    }
}

/// The minus order that these counts make into `done`, if there is one and it is another.
pub fn before(done: Order, counts: [u64; 3]) -> Option<Order> {
    let [a, b, c] = counts;
    let a = done.a.checked_sub(a)?;
    let (b, c) = (done.b.checked_sub(b)?, done.c.checked_sub(c)?);
    (counts != [0; 3]).then_some(Order { minus: true, o1: done.o1, a, b, c })
}

/// Codes that the paper names as not built, codes next to built ones, any other; O1 is always 0.
pub fn not_built(chance: &mut Chance) -> Order {
    loop {
        let a = match chance.below(4) {
            0 => {
                chance.pick(&[401, 205, 453, 455, 301, 302, 303, 304, 305, 351, 352, 353, 354, 355])
            }
            1 => chance.pick(&[
                2, 3, 4, 8, 9, 12, 20, 51, 55, 61, 102, 112, 120, 199, 206, 299, 349, 501, 550, 800,
            ]),
            _ => chance.below(1_000),
        };
        let (b, c) = (any_address(chance), any_address(chance));
        let order = Order { minus: false, o1: 0, a, b, c };
        if code(order).is_none() {
            return order;
        }
    }
}
