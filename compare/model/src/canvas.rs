//! The screen part of memory, one pixel at a time, and what a drawing on it marks and owes.

use crate::modes::Edge;
use crate::rect::{Rect, WHOLE_SCREEN};
use calls::layout::LINE;

/// What a drawing adds to dirty, and whether its part of owed is lowered first where lines are clamped.
#[derive(Debug, Clone, Copy)]
pub struct Mark {
    pub rect: Rect,
    pub lowers: bool,
}

impl Mark {
    pub fn plain(rect: Rect) -> Self {
        Self { rect, lowers: false }
    }

    pub fn lowering(rect: Rect) -> Self {
        Self { rect, lowers: true }
    }

    fn owes(&self, edge: Edge) -> Option<Rect> {
        if self.lowers && edge == Edge::Clamp { self.rect.lowered().clipped() } else { self.rect.clipped() }
    }
}

pub struct Canvas<'a> {
    screen: &'a mut [u8],
    /// What horizontal lines do beyond it.
    pub edge: Edge,
    /// The smallest rectangle around all pixels written so far.
    written: Option<Rect>,
}

impl<'a> Canvas<'a> {
    pub fn new(screen: &'a mut [u8], edge: Edge) -> Self {
        Self { screen, edge, written: None }
    }

    /// Write the pixel (x, y) of the screen: `becomes` is told the bit that stands there.
    pub fn put(&mut self, x: usize, y: usize, becomes: impl FnOnce(bool) -> bool) {
        let bit = get_bit(self.screen, x, y);
        set_bit(self.screen, x, y, becomes(bit));
        self.written = crate::rect::join(self.written, Some(Rect::pixel(x, y)));
    }

    /// What a drawing with this mark owes. The last clause of Marks: a pixel written outside of
    /// that makes it owe the whole screen.
    pub fn owes(&self, mark: Option<Mark>) -> Option<Rect> {
        let owes = mark.and_then(|mark| mark.owes(self.edge));
        match (self.written, owes) {
            (None, _) => owes,
            (Some(written), Some(rect)) if rect.contains(&written) => owes,
            _ => Some(WHOLE_SCREEN),
        }
    }
}

fn place(x: usize, y: usize) -> (usize, u8) {
    (y * LINE + x / 8, 0x80 >> (x % 8))
}

pub fn get_bit(screen: &[u8], x: usize, y: usize) -> bool {
    let (byte, mask) = place(x, y);
    screen[byte] & mask != 0
}

pub fn set_bit(screen: &mut [u8], x: usize, y: usize, bit: bool) {
    let (byte, mask) = place(x, y);
    if bit {
        screen[byte] |= mask;
    } else {
        screen[byte] &= !mask;
    }
}
