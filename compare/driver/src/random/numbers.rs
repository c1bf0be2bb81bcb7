//! Numbers near the edges that matter.

use super::Random;
use calls::layout::{CELLS, MEMORY, PANELS, SCREEN};

/// Coordinates around bytes, the glass, and the ends of 7 and 8 bits.
const EDGES: [u8; 26] = [
    0, 1, 2, 6, 7, 8, 9, 15, 16, 63, 64, 78, 79, 80, 81, 127, 128, 129, 152, 158, 159, 160, 161, 200, 254,
    255,
];

/// Where the windows lie, so that pokes and bitmaps can aim at them.
#[derive(Debug, Clone, Copy)]
pub struct Windows {
    pub graphics_base: u16,
    pub text_base: u16,
}

/// How often each panel polls, compared with the others.
pub type Paces = [u8; PANELS];

impl Random {
    pub fn paces(&mut self) -> Paces {
        std::array::from_fn(|_| self.pick(&[1, 1, 4, 16, 64]))
    }

    /// One of the panels, now and then a number that names none.
    pub fn panel_number(&mut self, paces: &Paces) -> u8 {
        match self.below(32) {
            0 => self.pick(&[4, 5, 6, 7, 8, 16, 127, 128, 252, 255]),
            1 => self.byte(),
            _ => self.weighted(paces) as u8,
        }
    }

    pub fn x(&mut self) -> u8 {
        match self.below(8) {
            0..4 => self.pick(&EDGES),
            4..7 => self.below(160) as u8,
            _ => self.byte(),
        }
    }

    pub fn y(&mut self) -> u8 {
        match self.below(8) {
            0..4 => self.pick(&EDGES),
            4..7 => self.below(80) as u8,
            _ => self.byte(),
        }
    }

    /// Mostly below `listed`, now and then a number that is not listed.
    pub fn mode(&mut self, listed: u8) -> u8 {
        if self.one_in(25) {
            let unlisted = [listed, listed + 1, 127, 128, 255];
            self.pick(&unlisted)
        } else {
            self.below(listed as usize) as u8
        }
    }

    pub fn radius(&mut self) -> u8 {
        match self.below(16) {
            0..6 => self.below(12) as u8,
            6..11 => self.below(60) as u8,
            11..13 => self.pick(&[0, 1, 2, 126, 127]),
            13..15 => self.below(128) as u8,
            _ => self.pick(&[128, 129, 200, 255]),
        }
    }

    /// A signed place from far left of the glass to far right.
    pub fn signed(&mut self, size: u8, glass: i32) -> i32 {
        let size = size as i32;
        match self.below(12) {
            0..5 => self.below(glass as usize) as i32,
            5..7 => -(self.below(size as usize + 2) as i32),
            7..9 => self.pick(&[-256, -255, -1, 0, 1, 7, 8, 9, glass - 1, glass, glass + 1]),
            9 => glass - size + self.below(3) as i32 - 1,
            10 => self.pick(&[i32::MIN, i32::MIN + 1, i32::MAX, i32::MAX - 1, -1 << 16, 1 << 16]),
            _ => (i32::MAX - size).saturating_add(self.below(4) as i32 - 1),
        }
    }

    pub fn key_words(&mut self) -> [u32; 8] {
        match self.below(6) {
            0..3 => [0; 8],
            3 => std::array::from_fn(|_| self.number() as u32),
            4 => [u32::MAX; 8],
            _ => {
                let mut words = [0; 8];
                for _ in 0..1 + self.below(6) {
                    let edge = self.pick(&[0, 1, 31, 32, 100, 191, 224, 254, 255]);
                    let address = if self.one_in(2) { edge } else { self.below(256) };
                    words[address / 32] |= 1u32 << (address % 32);
                }
                words
            }
        }
    }

    /// Windows that fit: at both ends of memory, on key addresses, around 0xe000, side by side.
    pub fn windows(&mut self) -> Windows {
        loop {
            let windows = self.any_windows();
            let (g, t) = (windows.graphics_base as usize, windows.text_base as usize);
            if g <= 63_935 && t <= 65_435 && (g + SCREEN <= t || t + CELLS <= g) {
                return windows;
            }
        }
    }

    /// Windows that may not fit.
    pub fn any_windows(&mut self) -> Windows {
        let graphics_base = match self.below(6) {
            0 => self.below(260) as u16,
            1 => self.pick(&[63_934, 63_935, 63_936, 63_937, 65_535, 64_000]),
            2 => 0xe000 - self.below(1700) as u16 + 50,
            3 => self.pick(&[0, 1, 4096, 32_768, 63_935]),
            _ => self.below(MEMORY) as u16,
        };
        let text_base = match self.below(8) {
            0 => self.below(260) as u16,
            1 => self.pick(&[65_431, 65_432, 65_433, 65_434, 65_435, 65_436, 65_437, 65_535]),
            2 => 0xe000 - self.below(110) as u16 + 5,
            3 => graphics_base.saturating_add(1598 + self.below(4) as u16),
            4 => graphics_base.saturating_sub(98 + self.below(8) as u16),
            5 => self.pick(&[0, 8192, 65_435]),
            _ => self.below(MEMORY) as u16,
        };
        Windows { graphics_base, text_base }
    }

    pub fn poke_address(&mut self, windows: Windows) -> u16 {
        let screen = windows.graphics_base as usize;
        let text = windows.text_base as usize;
        let address = match self.below(16) {
            0..6 => screen + self.below(SCREEN),
            6 => screen + self.pick(&[0, 19, 20, 1579, 1580, 1599, 1600]),
            7..10 => text + self.below(CELLS + 4),
            10..12 => text + self.pick(&[18, 19, 20, 39, 59, 78, 79, 97, 98, 99, 100, 103]),
            12 => 0xdffd + self.below(6),
            13 => self.below(258),
            14 => self.pick(&[0xfffd, 0xfffe, 0xffff, screen.wrapping_sub(1), text.wrapping_sub(1)]),
            _ => self.below(MEMORY),
        };
        address as u16
    }
}
