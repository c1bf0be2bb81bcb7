//! Texts with codes of every sort: emoji of both versions, GB, extra, others, single bytes.

use super::Random;
use calls::FontsLent;

const LEADS: [u8; 8] = [0x80, 0x81, 0x9f, 0xa0, 0xf7, 0xf8, 0xfe, 0xff];
const TRAILS: [u8; 10] = [0x00, 0x01, 0x20, 0x40, 0x7f, 0x80, 0xa0, 0xa1, 0xfe, 0xff];

/// The corners of the gap, leads 170-175 and trails 161-254, and the codes beside these.
const GAP_CORNERS: [[u8; 2]; 4] = [[170, 161], [170, 254], [175, 161], [175, 254]];
const BESIDE_GAP: [[u8; 2]; 8] =
    [[169, 161], [169, 254], [176, 161], [176, 254], [170, 160], [170, 255], [175, 160], [175, 255]];

/// Which pairs are chosen for the texts and the extra lists of a list of calls. A flush that shows
/// one in the gap is not compared with the reference.
#[derive(Debug, Clone, Copy, PartialEq, Eq)]
pub enum Pairs {
    OutsideGap,
    InGapToo,
}

impl Random {
    pub fn pairs(&mut self) -> Pairs {
        if self.one_in(4) { Pairs::InGapToo } else { Pairs::OutsideGap }
    }

    pub fn text(&mut self, pairs: Pairs) -> Vec<u8> {
        let codes = match self.below(10) {
            0..2 => self.below(3),
            2..7 => self.below(12),
            7..9 => self.below(30),
            _ => self.below(110),
        };
        let mut text = vec![];
        for _ in 0..codes {
            self.push_code(&mut text, pairs);
        }
        text
    }

    fn push_code(&mut self, text: &mut Vec<u8>, pairs: Pairs) {
        match self.below(12) {
            0..2 if pairs == Pairs::InGapToo => text.extend(self.in_gap()),
            0..5 => text.push(self.below(95) as u8 + 32),
            5 => text.push(self.pick(&[0, 1, 31, 126, 127, 128, 160, 161, 255])),
            6 => text.extend(self.emoji()),
            7 => text.extend(self.gb()),
            8 => text.extend(self.pick(&BESIDE_GAP)),
            9..11 => text.extend([self.pick(&LEADS), self.pick(&TRAILS)]),
            _ => text.extend([self.byte(), self.byte()]),
        }
    }

    fn gb(&mut self) -> [u8; 2] {
        let lead = if self.one_in(9) { 161 + self.below(9) } else { 176 + self.below(72) };
        [lead as u8, 161 + self.below(94) as u8]
    }

    /// Mostly corners: so few that texts and extra lists often share one.
    fn in_gap(&mut self) -> [u8; 2] {
        if self.one_in(4) {
            [170 + self.below(6) as u8, 161 + self.below(94) as u8]
        } else {
            self.pick(&GAP_CORNERS)
        }
    }

    /// A pair near the emoji codes of both versions.
    fn emoji(&mut self) -> [u8; 2] {
        let trails = [0x3f, 0x40, 0x45, 0x46, 0x7d, 0x7e, 0x7f, 0xa0, 0xa1, 0xd9, 0xda, 0xfe, 0xff];
        let lead = 0xf7 + self.below(8) as u8;
        [lead, if self.one_in(2) { self.pick(&trails) } else { self.byte() }]
    }

    /// Fonts, mostly whole, with a short extra list.
    pub fn fonts(&mut self, pairs: Pairs) -> FontsLent {
        let entries = if self.one_in(2) { 0 } else { self.below(12) };
        let mut extra_list = vec![];
        for _ in 0..entries {
            let [lead, trail] = self.extra_code(pairs);
            extra_list.extend([trail, lead]);
            extra_list.extend(self.extra_offset().to_le_bytes());
        }
        if self.one_in(60) {
            let len = extra_list.len() + 1 + self.below(5);
            extra_list.resize(len, 0);
        }
        let mut fonts = FontsLent::whole(extra_list);
        if self.one_in(5) {
            self.shorten(&mut fonts);
        }
        fonts
    }

    fn extra_code(&mut self, pairs: Pairs) -> [u8; 2] {
        match self.below(8) {
            0..4 if pairs == Pairs::InGapToo => self.in_gap(),
            0 => self.pick(&BESIDE_GAP),
            _ => [self.pick(&LEADS), self.pick(&TRAILS)],
        }
    }

    fn extra_offset(&mut self) -> u32 {
        let last = (fonts::EXTRA.len - 32) as u32;
        match self.below(40) {
            0 => self.pick(&[last + 1, last + 31, last + 32, u32::MAX, u32::MAX - 31]),
            1..4 => self.pick(&[0, 1, 31, 32, last - 1, last]),
            _ => self.below(last as usize + 1) as u32,
        }
    }

    fn shorten(&mut self, fonts: &mut FontsLent) {
        let font = match self.below(5) {
            0 => &mut fonts.ascii8,
            1 => &mut fonts.ascii16,
            2 => &mut fonts.gb,
            3 => &mut fonts.emoji,
            _ => &mut fonts.extra_font,
        };
        *font = match self.below(4) {
            0 => 0,
            1 => *font - 1,
            2 => *font - self.below(40),
            _ => self.below(*font),
        };
    }
}
