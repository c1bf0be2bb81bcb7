//! Rectangles for the reckoning, by first and last pixel: written apart from the model's.

use calls::layout::{HEIGHT, LINE, WIDTH, four};

/// First and last pixel, both included.
#[derive(Debug, Clone, Copy, PartialEq, Eq)]
pub struct Span {
    pub first: u32,
    pub last: u32,
}

#[derive(Debug, Clone, Copy, PartialEq, Eq)]
pub struct Area {
    pub across: Span,
    pub down: Span,
}

pub const LAST_X: u32 = WIDTH as u32 - 1;
pub const LAST_Y: u32 = HEIGHT as u32 - 1;

pub fn span(a: u32, b: u32) -> Span {
    Span { first: a.min(b), last: a.max(b) }
}

pub fn byte_span(a: u8, b: u8) -> Span {
    span(a as u32, b as u32)
}

impl Span {
    pub fn lowered(self, limit: u32) -> Self {
        Span { first: self.first.min(limit), ..self }
    }

    pub fn cut(self, limit: u32) -> Option<Self> {
        (self.first <= limit).then(|| Span { last: self.last.min(limit), ..self })
    }

    /// Its pixels as the bits of a line.
    pub fn bits(self) -> [u8; LINE] {
        std::array::from_fn(|byte| {
            let bit = |x: u32| x.saturating_sub(8 * byte as u32).min(8);
            ((0xff_u16 >> bit(self.first)) & !(0xff_u16 >> bit(self.last + 1))) as u8
        })
    }

    fn around(self, other: Span) -> Self {
        Span { first: self.first.min(other.first), last: self.last.max(other.last) }
    }
}

impl Area {
    pub fn whole() -> Self {
        Self { across: span(0, LAST_X), down: span(0, LAST_Y) }
    }

    pub fn around(self, other: Area) -> Self {
        Self { across: self.across.around(other.across), down: self.down.around(other.down) }
    }

    /// Its lines, top to bottom, each by itself.
    pub fn lines(self) -> impl Iterator<Item = Self> {
        (self.down.first..=self.down.last).map(move |y| Self { down: span(y, y), ..self })
    }

    pub fn height(self) -> u32 {
        self.down.last + 1 - self.down.first
    }

    /// Without its first line; `None` if that was the last.
    pub fn below_first_line(self) -> Option<Self> {
        let below = self.down.first + 1;
        (below <= self.down.last).then_some(Self { down: Span { first: below, ..self.down }, ..self })
    }

    /// The rectangle of a valid record that starts at this place.
    pub fn at(record: &[u8], place: usize) -> Option<Self> {
        let [left, top, right, bottom] = four(record, place).map(u32::from);
        (left < right).then(|| Area { across: span(left, right - 1), down: span(top, bottom - 1) })
    }

    /// Write it as the record has it: left, top, right, bottom; zeros for none.
    pub fn write(area: Option<Self>, bytes: &mut [u8]) {
        let sides = area.map_or([0; 4], |Area { across, down }| {
            [across.first, down.first, across.last + 1, down.last + 1]
        });
        for (place, side) in bytes.chunks_exact_mut(2).zip(sides) {
            place.copy_from_slice(&(side as u16).to_le_bytes());
        }
    }
}

#[test]
fn bits_of_a_span() {
    let pixels = |first: u32, last: u32| {
        let bits = Span { first, last }.bits();
        (0..WIDTH as u32).filter(|x| bits[*x as usize / 8] & 0x80 >> (x % 8) != 0).collect::<Vec<_>>()
    };
    for first in 0..=LAST_X {
        for last in first..=LAST_X {
            assert_eq!(pixels(first, last), (first..=last).collect::<Vec<_>>());
        }
    }
}
