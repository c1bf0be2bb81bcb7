//! What is reckoned for one panel.

use super::area::Area;
use calls::layout::*;

/// What it is owed is kept by `N` bands of equal heights, top to bottom.
#[derive(Debug, Clone, Copy)]
pub struct Panel<const N: usize> {
    owed: [Option<Area>; N],
    in_hand: Option<Area>,
    sent: u32,
}

impl<const N: usize> Default for Panel<N> {
    fn default() -> Self {
        Self { owed: [None; N], in_hand: None, sent: 0 }
    }
}

/// The lines of a mark, each with the others of the band that it lies in.
pub fn by_band<const N: usize>(mark: Area) -> [Option<Area>; N] {
    let mut parts = [None; N];
    for line in mark.lines() {
        let part = &mut parts[line.down.first as usize / (HEIGHT / N)];
        *part = around(*part, Some(line));
    }
    parts
}

fn around(one: Option<Area>, other: Option<Area>) -> Option<Area> {
    match (one, other) {
        (Some(one), Some(other)) => Some(one.around(other)),
        (None, area) | (area, None) => area,
    }
}

impl<const N: usize> Panel<N> {
    /// A mark, by bands.
    pub fn owe(&mut self, parts: &[Option<Area>; N]) {
        for (owed, part) in self.owed.iter_mut().zip(parts) {
            *owed = around(*owed, *part);
        }
    }

    pub fn empty_owed(&mut self) {
        self.owed = [None; N];
    }

    pub fn send(&mut self) {
        if let (None, Some(band)) = (self.in_hand, self.next_band()) {
            self.in_hand = self.owed[band].take();
        }
        if let Some(area) = self.in_hand {
            self.in_hand = area.below_first_line();
            self.sent = self.sent.saturating_add(1);
        }
    }

    /// The area whose first line the next send brings.
    pub fn next(&self) -> Option<Area> {
        self.in_hand.or_else(|| self.owed[self.next_band()?])
    }

    /// The first one that is not empty.
    fn next_band(&self) -> Option<usize> {
        self.owed.iter().position(Option::is_some)
    }
}

impl Panel<BANDS> {
    /// That of a valid record.
    pub fn of_record(record: &[u8], panel: usize) -> Self {
        Self {
            owed: std::array::from_fn(|band| Area::at(record, owed(panel, band))),
            in_hand: Area::at(record, in_hand(panel)),
            sent: double_word(record, lines_sent(panel)),
        }
    }

    /// Its part of the record.
    pub fn bytes(&self) -> [u8; PART] {
        let mut bytes = [0; PART];
        let rects = self.owed.into_iter().chain([self.in_hand]);
        for (rect, place) in rects.zip(bytes.chunks_exact_mut(RECT)) {
            Area::write(rect, place);
        }
        bytes[PART - 4..].copy_from_slice(&self.sent.to_le_bytes());
        bytes
    }
}
