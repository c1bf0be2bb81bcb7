//! What the two painters are told: places around bytes, sizes around bytes and the glass, sources
//! that share bytes with the screen or lie at the ends of memory.

use super::Random;
use super::numbers::Windows;
use calls::Painting;
use calls::layout::{HEIGHT, LINE, MEMORY, SCREEN, WIDTH};

impl Random {
    pub fn painting(&mut self, windows: Windows) -> Painting {
        if self.one_in(24) {
            return self.painting_over_its_source(windows);
        }
        let (width, height) = self.bitmap_size();
        let address = self.source(Painting::source_bytes(width, height), windows);
        let (x, y) = (self.bitmap_x(width), self.bitmap_y(height));
        Painting { address, x, y, width, height, mode: self.mode(5) }
    }

    /// A source from before the screen on into it, its lines longer than the screen's: no order of lines
    /// reads each before it is painted over.
    fn painting_over_its_source(&mut self, windows: Windows) -> Painting {
        let address = windows.graphics_base.wrapping_sub(100);
        Painting { address, x: 0, y: 0, width: 255, height: HEIGHT as u8, mode: self.mode(5) }
    }

    fn bitmap_size(&mut self) -> (u8, u8) {
        match self.below(16) {
            0 => (255, 255),
            1 => (159 + self.below(3) as u8, self.size()),
            2..8 => (1 + self.below(9) as u8, 1 + self.below(20) as u8),
            _ => (self.size(), self.size()),
        }
    }

    fn size(&mut self) -> u8 {
        match self.below(8) {
            0..5 => self.below(40) as u8,
            5..7 => self.pick(&[0, 1, 7, 8, 9, 16, 79, 80, 160, 161, 254, 255]),
            _ => self.byte(),
        }
    }

    /// Mostly at a multiple of 8 or a few pixels beside it, also left of the glass.
    fn bitmap_x(&mut self, width: u8) -> i32 {
        match self.below(8) {
            0..5 => 8 * (self.below(23) as i32 - 2) + self.pick(&[-1, 0, 1, 3, 5]),
            5 => -(self.below(width as usize + 1) as i32),
            _ => self.signed(width, WIDTH as i32),
        }
    }

    fn bitmap_y(&mut self, height: u8) -> i32 {
        match self.below(8) {
            0..4 => self.below(HEIGHT) as i32,
            4..6 => -(self.below(height as usize + 1) as i32),
            _ => self.signed(height, HEIGHT as i32),
        }
    }

    /// The address of a source of so many bytes. Some run past the end of memory.
    fn source(&mut self, bytes: usize, windows: Windows) -> u16 {
        let screen = windows.graphics_base as usize;
        let address = match self.below(16) {
            0 => 0,
            1 => MEMORY - bytes,
            2 => MEMORY - bytes + self.below(3) - 1,
            3..5 => screen,
            5 => screen + self.near_screen(),
            6 => screen.wrapping_sub(self.near_screen()),
            7..11 => screen + self.below(SCREEN),
            11..13 => (screen + self.below(SCREEN)).wrapping_sub(bytes / 2),
            // Its last byte is one of the first of the screen, or the one before.
            13 => (screen + self.below(2 * LINE)).wrapping_sub(bytes),
            _ => self.below(MEMORY),
        };
        address as u16
    }

    /// A few bytes, or lines and a byte more or less.
    fn near_screen(&mut self) -> usize {
        self.pick(&[1, 2, 3, 19, 20, 21, 40, 99, 100, 101, 1580, 1599, 1600, 1601])
    }
}

#[cfg(test)]
mod tests {
    use super::*;

    const SCREEN_START: usize = 4096;
    const SCREEN_END: usize = SCREEN_START + SCREEN;

    /// Of 20,000 paintings at least so many are such.
    fn assert_often(least: usize, what: &str, such: impl Fn(&Painting) -> bool) {
        let windows = Windows { graphics_base: SCREEN_START as u16, text_base: 8192 };
        let mut random = Random::new(1);
        let count = (0..20_000).map(|_| random.painting(windows)).filter(such).count();
        assert!(count >= least, "{what}: {count}");
    }

    /// Start and end of the source.
    fn source(painting: &Painting) -> (usize, usize) {
        let start = painting.address as usize;
        (start, start + Painting::source_bytes(painting.width, painting.height))
    }

    #[test]
    fn places_and_sizes_around_bytes() {
        for x in (0..20).flat_map(|byte| [-1, 0, 1].map(|beside| 8 * byte + beside)) {
            assert_often(50, &format!("x = {x}"), |told| told.x == x);
        }
        for width in (1..=9).chain(159..=161) {
            assert_often(200, &format!("width {width}"), |told| told.width == width);
        }
        assert_often(500, "255 by 255", |told| told.width == 255 && told.height == 255);
        assert_often(5_000, "widths within a byte", |told| told.width % 8 != 0);
        assert_often(500, "left of the glass and above it", |told| told.x < 0 && told.y < 0);
        (0..5).for_each(|mode| assert_often(2_000, "a mode", |told| told.mode == mode));
    }

    #[test]
    fn sources_over_the_screen_and_at_the_ends_of_memory() {
        let start_in = |start| (SCREEN_START..SCREEN_END).contains(&start);
        assert_often(1_000, "same address", |told| source(told).0 == SCREEN_START);
        assert_often(500, "from before into it", |told| {
            let (start, end) = source(told);
            start < SCREEN_START && (SCREEN_START + 1..SCREEN_END).contains(&end)
        });
        assert_often(1_000, "in it", |told| start_in(source(told).0) && source(told).1 <= SCREEN_END);
        assert_often(500, "from it on", |told| start_in(source(told).0) && source(told).1 > SCREEN_END);
        assert_often(500, "address 0", |told| told.address == 0);
        assert_often(500, "the last byte of memory", |told| source(told).1 == MEMORY);
        assert_often(500, "over its source", |told| {
            (told.x, told.y, told.width, told.height) == (0, 0, 255, 80)
                && source(told).0 == SCREEN_START - 100
        });
    }
}
