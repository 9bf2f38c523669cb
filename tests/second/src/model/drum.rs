//! The lent drum and its marks.

use super::stop::{Above, Length, Mark, Reason};
use super::word::{Word, MINUS};

pub const CELLS: usize = 1_000;

/// A drum and marks that were found good.
pub struct Drum<'a> {
    cells: &'a mut [u64],
    marks: &'a mut [u8],
}

/// Both runs must have 1,000 entries, every mark be 0 or 1, and every marked cell hold a word. What an
/// unmarked cell holds is not looked at.
pub fn judge(cells: &[u64], marks: &[u8]) -> Result<(), Reason> {
    if let Some(length) = Length::wrong(cells.len(), CELLS) {
        return Err(Reason::DrumLength(length));
    }
    if let Some(length) = Length::wrong(marks.len(), CELLS) {
        return Err(Reason::MarksLength(length));
    }
    if let Some(&mark) = marks.iter().find(|&&mark| mark > 1) {
        return Err(Reason::MarkAboveOne(above_one(mark)));
    }
    let marked = |cell: &usize| marks[*cell] == 1;
    let no_word = |cell: &usize| Word::of_cell(cells[*cell]).is_none();
    if let Some(cell) = (0..CELLS).filter(marked).find(no_word) {
        let near = cells[cell] < 3 * MINUS;
        return Err(Reason::MarkedCellNoWord(if near { Above::Near } else { Above::Far }));
    }
    Ok(())
}

impl<'a> Drum<'a> {
    pub fn lent(cells: &'a mut [u64], marks: &'a mut [u8]) -> Result<Drum<'a>, Reason> {
        judge(cells, marks)?;
        Ok(Drum { cells, marks })
    }

    /// The word of a marked cell.
    pub fn word(&self, cell: u64) -> Option<Word> {
        let cell = cell as usize;
        if self.marks[cell] == 0 {
            return None;
        }
        Word::of_cell(self.cells[cell])
    }

    /// What a stop or a trace card shows of a cell: plus zero if it is unmarked.
    pub fn shown(&self, cell: u64) -> Word {
        self.word(cell).unwrap_or(Word::PLUS_ZERO)
    }

    /// The word that lies in a cell, marked or not. No rule may ask for it.
    pub fn lying(&self, cell: u64) -> Option<Word> {
        Word::of_cell(self.cells[cell as usize])
    }

    pub fn store(&mut self, cell: u64, word: Word) {
        self.cells[cell as usize] = word.cell();
        self.marks[cell as usize] = 1;
    }
}

fn above_one(mark: u8) -> Mark {
    match mark {
        2 => Mark::Two,
        3 => Mark::Three,
        _ if mark % 2 == 0 => Mark::Even,
        _ => Mark::Odd,
    }
}
