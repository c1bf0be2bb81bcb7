//! What the reference can be asked about a flush.
//!
//! Document 01 takes the cells 100-103 behind the text, and their flags, as zero. The reference
//! reads whatever lies there. So it is given zeros for the time of a flush, and a flush that
//! reads there is left out where zeros cannot be given.
//!
//! Change request 2 takes GB's empty rows 10-15 out of GB: the gap. The reference shows the glyphs
//! of rows 4-9 for a pair in it, so a flush that shows such a pair is left out too.

use crate::device::default::DefaultDevice;
use calls::FontsLent;
use calls::layout::{CELLS, COLUMNS, MEMORY, ROWS};
use std::ops::Range;

/// How far flush can read behind the text.
const AHEAD: usize = 4;

/// Whether the code of a pair is in the gap: lead 170-175, trail 161-254.
pub fn in_gap(code: u16) -> bool {
    let [lead, trail] = code.to_be_bytes();
    (170..=175).contains(&lead) && (161..=254).contains(&trail)
}

/// The bytes behind the text that may be lent as zeros: in memory and not on the screen.
pub fn behind_text(device: &DefaultDevice) -> Range<usize> {
    let start = device.text_base() + CELLS;
    let screen = device.graphics_base();
    let limit = if screen >= start { screen } else { MEMORY };
    start..(start + AHEAD).min(limit)
}

pub fn can_follow(device: &DefaultDevice, fonts: &FontsLent) -> bool {
    let walk = Walk::of_device(device);
    let zeros_behind =
        behind_text(device).len() == AHEAD && fonts.extra_entries().all(|(code, _)| code % 256 != 0);
    codes_occur_once(fonts) && (zeros_behind || !walk.reads_behind()) && !walk.pairs.into_iter().any(in_gap)
}

fn codes_occur_once(fonts: &FontsLent) -> bool {
    let codes: Vec<u16> = fonts.extra_entries().map(|(code, _)| code).collect();
    codes.iter().enumerate().all(|(k, code)| !codes[..k].contains(code))
}

/// Flush's walk over a text.
#[derive(Default)]
pub struct Walk {
    /// How many cells it reads.
    cells: usize,
    /// The codes of the pairs that it shows.
    pub pairs: Vec<u16>,
}

impl Walk {
    pub fn of_device(device: &DefaultDevice) -> Self {
        Self::of_text(&device.memory()[device.text_base()..][..CELLS])
    }

    fn of_text(text: &[u8]) -> Self {
        let mut walk = Self::default();
        for row in 0..ROWS {
            walk.fill_row(row, text);
        }
        walk
    }

    /// Read on until a row of the screen is full: a pair at its end takes a cell of the next row.
    fn fill_row(&mut self, row: usize, text: &[u8]) {
        let byte = |cell: usize| text.get(cell).copied().unwrap_or(0);
        let mut column = 0;
        while column < COLUMNS {
            let [lead, trail] = [byte(self.cells), byte(self.cells + 1)];
            let last = row == ROWS - 1 && column == COLUMNS - 1;
            let mut taken = 1;
            if lead >= 128 && !last {
                self.pairs.push(u16::from_be_bytes([lead, trail]));
                taken = 2;
            }
            self.cells += taken;
            column += taken;
        }
    }

    fn reads_behind(&self) -> bool {
        self.cells > CELLS
    }
}

#[cfg(test)]
mod tests {
    use super::*;

    /// The walk over a text with these bytes from a cell on, zeros elsewhere.
    fn walk(cell: usize, bytes: &[u8]) -> Walk {
        let mut text = [0; CELLS];
        text[cell..cell + bytes.len()].copy_from_slice(bytes);
        Walk::of_text(&text)
    }

    #[test]
    fn corners_of_the_gap_and_codes_beside_it() {
        for code in [0xaaa1, 0xaafe, 0xafa1, 0xaffe] {
            assert!(in_gap(code), "{code:#x}");
        }
        for code in [0xa9a1, 0xa9fe, 0xb0a1, 0xb0fe, 0xaaa0, 0xaaff, 0xafa0, 0xafff] {
            assert!(!in_gap(code), "{code:#x}");
        }
    }

    #[test]
    fn pairs_are_taken_from_where_flush_reads_them() {
        assert_eq!(walk(0, &[0xaa, 0xa1]).pairs, [0xaaa1]);
        assert_eq!(walk(1, &[0xaa, 0xa1]).pairs, [0xaaa1]);
        assert_eq!(walk(19, &[0xaa, 0xa1]).pairs, [0xaaa1]);
        assert_eq!(walk(0, &[b'a', 0xaa, 0xa1]).pairs, [0xaaa1]);
        assert_eq!(walk(0, &[0x80, 0xaa, 0xa1, 0x20]).pairs, [0x80aa, 0xa120]);
        assert_eq!(walk(0, &[0xaa, 0, 0xa1]).pairs, [0xaa00, 0xa100]);
    }

    #[test]
    fn the_last_cell_shows_alone_unless_reading_is_ahead() {
        assert_eq!(walk(98, &[0xaa, 0xa1]).pairs, [0xaaa1]);
        let alone = walk(99, &[0xaa]);
        assert!(alone.pairs.is_empty() && !alone.reads_behind());
        let mut ahead = [0; CELLS];
        (ahead[19], ahead[99]) = (0xaa, 0xaa);
        let ahead = Walk::of_text(&ahead);
        assert_eq!(ahead.pairs, [0xaa00, 0xaa00]);
        assert!(ahead.reads_behind());
    }
}
