//! Print, newline, scrolling and clearing.

use crate::modes::{PrintMode, ScreenMode};
use crate::record::Record;
use calls::layout::{CELL_HEIGHT, CELLS, COLUMNS, LINE, ROWS, SCREEN};

const LAST_COLUMN: usize = COLUMNS - 1;
const TEXT_ROW_BYTES: usize = LINE * CELL_HEIGHT;

impl Record {
    /// The cell that the cursor stands on.
    pub fn cell(&self) -> usize {
        self.row * COLUMNS + self.column
    }

    /// Write a byte into the cursor's cell, with its flag.
    fn put_cell(&mut self, memory: &mut [u8], byte: u8) {
        let cell = self.cell();
        self.text(memory)[cell] = byte;
        self.flags[cell] = self.print_mode != PrintMode::Normal;
    }

    pub fn print(&mut self, memory: &mut [u8], text: &[u8]) {
        let mut bytes = text.iter().copied();
        while let Some(byte) = bytes.next() {
            if byte >= 128 && self.column == LAST_COLUMN {
                self.put_cell(memory, b' ');
                self.newline(memory);
            }
            self.put_cell(memory, byte);
            self.column += 1;
            let second = if byte >= 128 { bytes.next() } else { None };
            if let Some(second) = second {
                self.put_cell(memory, second);
                self.column += 1;
            }
            if self.column == COLUMNS {
                self.newline(memory);
            }
        }
        self.clear_from_cursor(memory);
    }

    /// Cells become 0 until the next one is already 0 or the last is done; flags stay.
    fn clear_from_cursor(&mut self, memory: &mut [u8]) {
        let first = self.cell();
        let text = self.text(memory);
        for cell in first..CELLS {
            text[cell] = 0;
            if text.get(cell + 1) == Some(&0) {
                break;
            }
        }
    }

    pub fn newline(&mut self, memory: &mut [u8]) {
        if self.column == 0 {
            return;
        }
        if self.row == ROWS - 1 {
            self.scroll(memory);
        } else {
            self.row += 1;
        }
        self.column = 0;
    }

    /// One row of text up, in Graph sixteen lines of the screen too.
    fn scroll(&mut self, memory: &mut [u8]) {
        if self.screen_mode == ScreenMode::Graph {
            let screen = self.screen(memory);
            screen.copy_within(TEXT_ROW_BYTES.., 0);
            screen[SCREEN - TEXT_ROW_BYTES..].fill(0);
            self.owe_whole_screen();
        }
        let text = self.text(memory);
        text.copy_within(COLUMNS.., 0);
        text[CELLS - COLUMNS..].fill(0);
        self.flags.copy_within(COLUMNS.., 0);
        self.flags[CELLS - COLUMNS..].fill(false);
    }

    pub fn cls(&mut self, memory: &mut [u8]) {
        self.text(memory).fill(0);
        self.screen(memory).fill(0);
        self.flags.fill(false);
        self.row = 0;
        self.column = 0;
        self.mark_whole_screen();
    }

    pub fn set_print_mode(&mut self, mode: PrintMode) {
        let flash_while_inverse = self.print_mode == PrintMode::Inverse && mode == PrintMode::Flash;
        self.print_mode = if flash_while_inverse { PrintMode::Normal } else { mode };
    }
}
