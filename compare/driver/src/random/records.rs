//! Valid records of any content, also such as no list of calls leads to.

use super::Random;
use calls::layout::*;
use std::ops::Range;

impl Random {
    /// One with this edge flag.
    pub fn valid_record(&mut self, edge: u8) -> Vec<u8> {
        let mut record = vec![0; RECORD];
        let windows = self.windows();
        record[GRAPHICS_BASE..][..2].copy_from_slice(&windows.graphics_base.to_le_bytes());
        record[TEXT_BASE..][..2].copy_from_slice(&windows.text_base.to_le_bytes());
        record[ROW] = if self.one_in(3) { 4 } else { self.below(5) as u8 };
        record[COLUMN] = if self.one_in(3) { self.pick(&[0, 17, 18, 19]) } else { self.below(20) as u8 };
        record[SCREEN_MODE] = self.below(2) as u8;
        record[PRINT_MODE] = self.below(3) as u8;
        record[CURSOR] = self.below(3) as u8;
        record[VERSION] = self.below(2) as u8;
        self.put_rect(&mut record, DIRTY, 256, 0..256);
        (0..PANELS).for_each(|panel| self.put_panel(&mut record, panel));
        for (place, key) in self.key_words().into_iter().enumerate() {
            record[KEYS + 4 * place..][..4].copy_from_slice(&key.to_le_bytes());
        }
        let flags = self.below(4);
        for flag in &mut record[FLAGS..FLAGS_END] {
            *flag = match flags {
                0 => 0,
                1 => 1,
                _ => self.below(2) as u8,
            };
        }
        record[EDGE] = edge;
        record
    }

    fn put_panel(&mut self, record: &mut [u8], panel: usize) {
        for band in 0..BANDS {
            self.put_rect(record, owed(panel, band), WIDTH, band * BAND..(band + 1) * BAND);
        }
        self.put_rect(record, in_hand(panel), WIDTH, 0..HEIGHT);
        let sent = self.pick(&[0, 1, u32::MAX - 2, u32::MAX - 1, u32::MAX, 1 << 16, 255]);
        record[lines_sent(panel)..][..4].copy_from_slice(&sent.to_le_bytes());
    }

    /// An empty rectangle, or one within this width and these lines.
    fn put_rect(&mut self, record: &mut [u8], place: usize, width: usize, lines: Range<usize>) {
        let sides = match self.below(4) {
            0 => [0; 4],
            1 => [0, lines.start, width, lines.end],
            _ => {
                let (left, right) = self.ends(width);
                let (top, bottom) = self.ends(lines.len());
                [left, lines.start + top, right, lines.start + bottom]
            }
        };
        for (k, side) in sides.into_iter().enumerate() {
            record[place + 2 * k..][..2].copy_from_slice(&(side as u16).to_le_bytes());
        }
    }

    /// Two ends, the first below the second, the second at most `limit`.
    fn ends(&mut self, limit: usize) -> (usize, usize) {
        let first = self.below(limit);
        let second = first + 1 + self.below(limit - first);
        (first, second)
    }
}
