//! The blinking cursor: one or two cells of the screen inverted, in Text alone.

use crate::canvas::Mark;
use crate::modes::{Cursor, ScreenMode};
use crate::record::Record;
use crate::rect::Rect;
use calls::layout::{CELL_HEIGHT, WIDTH};

impl Record {
    pub fn blink_cursor(&mut self, memory: &mut [u8]) {
        if self.screen_mode == ScreenMode::Graph {
            return;
        }
        if self.cursor == Cursor::None {
            let cell = self.cell();
            self.cursor = if self.text(memory)[cell] >= 128 { Cursor::Full } else { Cursor::Half };
            self.invert_cursor(memory);
        } else {
            self.invert_cursor(memory);
            self.cursor = Cursor::None;
        }
    }

    pub fn clear_cursor(&mut self, memory: &mut [u8]) {
        if self.cursor != Cursor::None {
            self.blink_cursor(memory);
            self.cursor = Cursor::None;
        }
    }

    /// A full cursor at column 19 has one cell to invert, yet its mark is two cells wide.
    fn invert_cursor(&mut self, memory: &mut [u8]) {
        let cells = if self.cursor == Cursor::Full { 2 } else { 1 };
        let left = self.column * 8;
        let top = self.row * CELL_HEIGHT;
        let rect = Rect::new(left, top, left + 8 * cells, top + CELL_HEIGHT);
        self.draw(memory, |canvas| {
            for y in rect.top..rect.bottom {
                for x in rect.left..rect.right.min(WIDTH) {
                    canvas.put(x, y, |bit| !bit);
                }
            }
            Some(Mark::plain(rect))
        });
    }
}
