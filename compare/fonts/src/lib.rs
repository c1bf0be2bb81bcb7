//! Stand-in fonts. The real font files are not at hand, so a fixed rule makes bytes that
//! differ from glyph to glyph and from line to line.

use std::sync::OnceLock;

/// A font: the number that keeps its bytes apart from the others', and its length.
pub struct Font {
    number: u32,
    pub len: usize,
}

/// 8 bytes for each of 128 codes.
pub const ASCII8: Font = Font { number: 1, len: 8 * 128 };
/// 16 bytes for each of 128 codes.
pub const ASCII16: Font = Font { number: 2, len: 16 * 128 };
/// 32 bytes for each GB index, 0-7,613.
pub const GB: Font = Font { number: 3, len: 32 * 7614 };
/// 32 bytes for each emoji index, 0-526.
pub const EMOJI: Font = Font { number: 4, len: 32 * 527 };
/// Glyphs for the extra list, at any offset.
pub const EXTRA: Font = Font { number: 5, len: 1024 };

impl Font {
    /// The rule: the top byte of (number * 65,537 + place) * 2,654,435,761 modulo 2^32.
    pub fn byte(&self, place: usize) -> u8 {
        let mixed = (self.number * 65_537).wrapping_add(place as u32).wrapping_mul(2_654_435_761);
        (mixed >> 24) as u8
    }

    pub fn bytes(&self) -> Vec<u8> {
        (0..self.len).map(|place| self.byte(place)).collect()
    }
}

/// The fonts made once, to be lent.
pub struct Made {
    pub ascii8: Vec<u8>,
    pub ascii16: Vec<u8>,
    pub gb: Vec<u8>,
    pub emoji: Vec<u8>,
    pub extra: Vec<u8>,
}

pub fn made() -> &'static Made {
    static MADE: OnceLock<Made> = OnceLock::new();
    MADE.get_or_init(|| Made {
        ascii8: ASCII8.bytes(),
        ascii16: ASCII16.bytes(),
        gb: GB.bytes(),
        emoji: EMOJI.bytes(),
        extra: EXTRA.bytes(),
    })
}
