//! What is kept for each panel.

use crate::record::{read_rect, write_rect, write_u32};
use crate::rect::{Rect, WHOLE_SCREEN, join};
use calls::layout::*;

#[derive(Debug, Clone, Copy, PartialEq, Eq)]
pub struct Pending {
    /// One for each band of the screen, top to bottom.
    pub owed: [Option<Rect>; BANDS],
    pub in_hand: Option<Rect>,
    pub lines_sent: u32,
}

/// All that lies in the band of this number.
fn band(number: usize) -> Rect {
    let top = number * BAND;
    Rect::new(0, top, WIDTH, top + BAND)
}

impl Pending {
    /// As open leaves it.
    pub fn fresh() -> Self {
        let mut fresh = Self { owed: [None; BANDS], in_hand: None, lines_sent: 0 };
        fresh.owe(WHOLE_SCREEN);
        fresh
    }

    /// Those of all panels, if STATE lets each of them pass.
    pub fn read_all(bytes: &[u8]) -> Option<[Self; PANELS]> {
        Some([Self::read(bytes, 0)?, Self::read(bytes, 1)?, Self::read(bytes, 2)?, Self::read(bytes, 3)?])
    }

    fn read(bytes: &[u8], panel: usize) -> Option<Self> {
        let mut rects = [None; BANDS];
        for (number, rect) in rects.iter_mut().enumerate() {
            *rect = read_rect(bytes, owed(panel, number), &band(number))?;
        }
        Some(Self {
            owed: rects,
            in_hand: read_rect(bytes, in_hand(panel), &WHOLE_SCREEN)?,
            lines_sent: double_word(bytes, lines_sent(panel)),
        })
    }

    pub fn write(&self, bytes: &mut [u8], panel: usize) {
        for (number, rect) in self.owed.iter().enumerate() {
            write_rect(bytes, owed(panel, number), *rect);
        }
        write_rect(bytes, in_hand(panel), self.in_hand);
        write_u32(bytes, lines_sent(panel), self.lines_sent);
    }

    /// Cut at the edges of the bands, each part joined to its own.
    pub fn owe(&mut self, rect: Rect) {
        for (number, owed) in self.owed.iter_mut().enumerate() {
            *owed = join(*owed, rect.part_in(&band(number)));
        }
    }

    /// With nothing in hand, the band nearest the top that is not empty comes there.
    pub fn take(&mut self) {
        if self.in_hand.is_none() {
            self.in_hand = self.owed.iter_mut().find_map(Option::take);
        }
    }

    /// The lines that are left to be sent.
    pub fn lines(&self) -> usize {
        let height = |rect: &Rect| rect.bottom - rect.top;
        self.owed.iter().chain([&self.in_hand]).flatten().map(height).sum()
    }
}
