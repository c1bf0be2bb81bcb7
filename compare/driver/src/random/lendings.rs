//! Other buffers: wrong lengths, and records with bytes changed near what STATE tests.

use super::Random;
use crate::list::Other;
use calls::layout::*;

/// Bytes that have only a few values.
const MODES: [usize; 5] = [SCREEN_MODE, PRINT_MODE, CURSOR, VERSION, EDGE];

impl Random {
    pub fn other(&mut self) -> Other {
        let mut other = Other::same();
        for _ in 0..1 + self.below(2) {
            match self.below(8) {
                0 => other.record_len = self.record_length(),
                1 => other.memory_len = self.length(MEMORY, 300),
                2 => other.panel_len = self.length(PANEL, 40),
                _ => self.change_record(&mut other.record_bytes),
            }
        }
        other
    }

    /// Also a record that ends before the part of a panel: 202 bytes hold panel 0's alone. One byte too few
    /// lacks the edge flag; 231 bytes are a record with one band.
    pub fn record_length(&mut self) -> usize {
        match self.below(6) {
            0 => 231,
            1..3 => part(self.below(PANELS)).start,
            _ => self.length(RECORD, 70),
        }
    }

    pub fn length(&mut self, right: usize, around: usize) -> usize {
        match self.below(4) {
            0 => 0,
            1 => right + 1,
            2 => right - 1,
            _ => right - around + self.below(2 * around),
        }
    }

    pub fn change_record(&mut self, bytes: &mut Vec<(usize, u8)>) {
        match self.below(10) {
            0 => bytes.push((self.below(4), self.byte())),
            1 => bytes.push((ROW, self.pick(&[4, 5, 6, 128, 255]))),
            2 => bytes.push((COLUMN, self.pick(&[19, 20, 21, 128, 255]))),
            3 => bytes.push((self.pick(&MODES), self.pick(&[0, 1, 2, 3, 4, 128, 255]))),
            4..7 => self.change_rect(bytes),
            7 => bytes.push((FLAGS + self.below(CELLS), self.pick(&[0, 1, 2, 3, 128, 255]))),
            8 if self.one_in(2) => bytes.push((KEYS + self.below(32), self.byte())),
            8 => bytes.push((lines_sent(self.below(PANELS)) + self.below(4), self.byte())),
            _ => bytes.push((self.below(RECORD), self.byte())),
        }
    }

    /// Sides at and just past their limits, in any order; or all around the edges of a band.
    fn change_rect(&mut self, bytes: &mut Vec<(usize, u8)>) {
        let (panel, band) = (self.below(PANELS), self.below(BANDS));
        let owed = owed(panel, band);
        let place = self.pick(&[DIRTY, owed, owed, owed, in_hand(panel)]);
        let sides: [u16; 4] = match self.below(6) {
            0 => std::array::from_fn(|_| self.pick(&[0, 1, 79, 80, 81, 159, 160, 161, 255, 256, 257])),
            1 => {
                let (x, y) = (self.below(257) as u16, self.below(257) as u16);
                [x, y, x + self.below(2) as u16, y + self.below(2) as u16]
            }
            2 => [0, 0, self.pick(&[0, 1, 160, 161, 256, 257]), self.pick(&[0, 1, 80, 81, 256, 257])],
            3 => std::array::from_fn(|_| self.number() as u16),
            _ => self.around_band(band),
        };
        for (k, side) in sides.into_iter().enumerate() {
            let [low, high] = side.to_le_bytes();
            bytes.push((place + 2 * k, low));
            bytes.push((place + 2 * k + 1, high));
        }
    }

    /// A rectangle that fills its lines, or reaches a line too far or too little.
    fn around_band(&mut self, band: usize) -> [u16; 4] {
        let [top, bottom] = [band, band + 1].map(|edge| (edge * BAND) as u16);
        let mut beside = |line: u16| line.wrapping_add(self.pick(&[0, 0, 1, u16::MAX]));
        [0, beside(top), 160, beside(bottom)]
    }
}
