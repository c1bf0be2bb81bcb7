//! Flush: the text's glyphs onto the screen. Everything to be painted is listed first, so that a
//! font that is too short is known before a byte changes.

use crate::glyph::{self, Half};
use crate::modes::{ScreenMode, Version};
use crate::record::Record;
use calls::layout::{CELL_HEIGHT, CELLS, COLUMNS, LINE, ROWS};
use calls::{FontsLent, Refusal};

/// A screen byte and what it becomes.
type Store = (usize, u8);

struct Painter<'a> {
    text: &'a [u8],
    flags: &'a [bool; CELLS],
    version: Version,
    fonts: &'a FontsLent,
    stores: Vec<Store>,
}

impl Record {
    pub fn flush(&mut self, memory: &mut [u8], fonts: &FontsLent) -> Result<(), Refusal> {
        let stores = self.stores(self.text(memory), fonts)?;
        let screen = self.screen(memory);
        if self.screen_mode == ScreenMode::Text {
            screen.fill(0);
        }
        for (place, byte) in stores {
            screen[place] = byte;
        }
        self.mark_whole_screen();
        Ok(())
    }

    fn stores(&self, text: &[u8], fonts: &FontsLent) -> Result<Vec<Store>, Refusal> {
        let mut painter = Painter { text, flags: &self.flags, version: self.version, fonts, stores: vec![] };
        painter.paint_rows()?;
        Ok(painter.stores)
    }
}

impl Painter<'_> {
    /// Reading goes on from row to row: a pair that runs over a row's end leaves it one cell ahead.
    fn paint_rows(&mut self) -> Result<(), Refusal> {
        let mut cell = 0;
        for row in 0..ROWS {
            let mut column = 0;
            while column < COLUMNS {
                let taken = self.paint_cell(cell, row, column)?;
                cell += taken;
                column += taken;
            }
        }
        Ok(())
    }

    /// Paint what the cell holds at this row and column; answers how many cells that took.
    fn paint_cell(&mut self, cell: usize, row: usize, column: usize) -> Result<usize, Refusal> {
        let byte = self.byte(cell);
        let last = row == ROWS - 1 && column == COLUMNS - 1;
        if byte == 0 {
            Ok(1)
        } else if byte < 128 {
            let half = glyph::ascii(self.fonts, byte)?;
            self.paint_half(top_of(row, column), &half, self.flag(cell));
            Ok(1)
        } else if last {
            let half = glyph::hexadecimal(self.fonts, byte)?;
            self.paint_half(top_of(row, column), &half, false);
            Ok(1)
        } else {
            self.paint_pair(cell, row, column)?;
            Ok(2)
        }
    }

    fn paint_pair(&mut self, cell: usize, row: usize, column: usize) -> Result<(), Refusal> {
        let (lead, trail) = (self.byte(cell), self.byte(cell + 1));
        let left = top_of(row, column);
        if let Some(glyph) = glyph::pair(self.version, self.fonts, lead, trail)? {
            // At a row's end the right half falls on column 0 of the row below.
            let right = if column == COLUMNS - 1 { top_of(row + 1, 0) } else { top_of(row, column + 1) };
            self.paint_half(left, &glyph.map(|line| line[0]), self.flag(cell));
            self.paint_half(right, &glyph.map(|line| line[1]), self.flag(cell + 1));
        } else {
            // At a row's end the second code falls on column 0 one pixel line under the row's top.
            let (first, second) =
                (glyph::hexadecimal(self.fonts, lead)?, glyph::hexadecimal(self.fonts, trail)?);
            self.paint_half(left, &first, false);
            self.paint_half(left + 1, &second, false);
        }
        Ok(())
    }

    fn paint_half(&mut self, top: usize, half: &Half, inverse: bool) {
        for (line, byte) in half.iter().enumerate() {
            let byte = if inverse { !byte } else { *byte };
            self.stores.push((top + line * LINE, byte));
        }
    }

    /// Cells past the last, and their flags, count as zero.
    fn byte(&self, cell: usize) -> u8 {
        self.text.get(cell).copied().unwrap_or(0)
    }

    fn flag(&self, cell: usize) -> bool {
        self.flags.get(cell).copied().unwrap_or(false)
    }
}

/// The screen byte at the top of a text cell.
fn top_of(row: usize, column: usize) -> usize {
    row * CELL_HEIGHT * LINE + column
}
