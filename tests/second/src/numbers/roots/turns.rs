//! Leading parts where a root turns: at both ends, at squares and beside them, at round numbers.

use std::sync::OnceLock;

use super::near::{self, PLACES};
use super::part::{Parity, Part, PARITIES};
use crate::model::word::Number;

/// So many parts belong to either end.
pub const END: u64 = 50_000;

pub fn first_part(place: u64, parity: Parity) -> Part {
    Part { m: Number::LEAST + place, parity }
}

pub fn last_part(place: u64, parity: Parity) -> Part {
    Part { m: 10 * Number::LEAST - 1 - place, parity }
}

/// Exact roots are four digits, these, and four zeros. One more, whose part would have nine digits,
/// has only parts below it.
pub const SQUARES: std::ops::RangeInclusive<u64> = 1_000..=10_000;

/// The parts of an exact root and as far as this from it are squares and their neighbours.
pub const BESIDE: i64 = 2;

/// The part beside that of an exact root, so many places up or down.
pub fn beside_square(k: u64, by: i64) -> Option<Part> {
    let (m, parity) =
        if 10 * k * k < 100_000_000 { (10 * k * k, Parity::Even) } else { (k * k, Parity::Odd) };
    Part::new(m.checked_add_signed(by)?, parity)
}

/// Round roots are five digits, these, and three zeros; with a fourth zero they are exact.
pub const ROUND: std::ops::Range<u64> = 10_000..100_000;

/// The parts on both sides of where the root passes a round number; none where it stops there.
pub fn beside_round(j: u64) -> Option<[Part; 2]> {
    let part = near::nearest_to_half_of(2_000 * j)?;
    match near::apart(part, 2_000 * j) {
        0 => None,
        1.. => Some([part.beside(-1)?, part]),
        _ => Some([part, part.beside(1)?]),
    }
}

/// All of them, and those that come near to half way and to whole roots, these first.
pub fn sweep() -> &'static [Part] {
    static SWEEP: OnceLock<Vec<Part>> = OnceLock::new();
    SWEEP.get_or_init(|| {
        let mut parts = Vec::new();
        for place in PLACES {
            for parity in PARITIES {
                parts.extend(near::all(place, parity).iter().map(|(_, part)| part));
            }
        }
        parts.extend(SQUARES.flat_map(squares));
        parts.extend(ROUND.filter_map(beside_round).flatten());
        parts.extend((0..END).flat_map(ends));
        parts
    })
}

fn squares(k: u64) -> impl Iterator<Item = Part> {
    (-BESIDE..=BESIDE).filter_map(move |by| beside_square(k, by))
}

fn ends(place: u64) -> impl Iterator<Item = Part> {
    PARITIES
        .into_iter()
        .flat_map(move |parity| [first_part(place, parity), last_part(place, parity)])
}

/// A few of each kind: the nearest, the outermost, and squares and round numbers from all over.
pub fn few() -> &'static [Part] {
    static FEW: OnceLock<Vec<Part>> = OnceLock::new();
    FEW.get_or_init(|| {
        let mut parts: Vec<Part> = (0..6).flat_map(ends).collect();
        for (place, many) in PLACES.into_iter().zip([12, 12, 6, 6]) {
            for parity in PARITIES {
                parts.extend(near::all(place, parity)[..many].iter().map(|(_, part)| part));
            }
        }
        parts.extend(SQUARES.step_by(563).flat_map(squares));
        parts.extend([3_162, 3_163, 9_999, 10_000].into_iter().flat_map(squares));
        parts.extend(ROUND.skip(1).step_by(5_557).filter_map(beside_round).flatten());
        parts
    })
}

#[cfg(test)]
mod tests {
    use super::*;
    use std::collections::BTreeSet;

    /// The square of an exact root ends in seven zeros, and that of a whole number in as many only
    /// where the number ends in four.
    #[test]
    fn squares_are_all_there_are() {
        for ending in 0..10_000_000u64 {
            assert_eq!(ending * ending % 10_000_000 == 0, ending % 10_000 == 0);
        }
        for k in SQUARES {
            let root = 10_000 * k;
            let nine_digits = (k == 10_000).then_some(100_000_000 * 100_000_000);
            let square = beside_square(k, 0).map(Part::square).or(nine_digits);
            assert_eq!(square, Some(root * root));
        }
    }

    #[test]
    fn the_root_passes_a_round_number_between_two_parts() {
        for j in ROUND {
            let square = 1_000_000 * j * j;
            match beside_round(j) {
                Some([below, above]) => {
                    assert!(below.square() < square && square < above.square());
                    assert_eq!((above.m, above.parity), (below.m + 1, below.parity));
                }
                None => assert_eq!(j % 10, 0),
            }
        }
    }

    #[test]
    fn few_of_each_and_the_whole_sweep() {
        assert_eq!((few().len(), sweep().len()), (223, 436_783));
        let near: usize = PLACES
            .into_iter()
            .flat_map(|place| PARITIES.map(|parity| near::all(place, parity).len()))
            .sum();
        assert_eq!(sweep().len(), near + 45_000 + 2 * 81_000 + 4 * END as usize);
        assert!(few().iter().collect::<BTreeSet<_>>().len() > 200);
    }
}
