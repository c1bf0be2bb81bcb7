//! Which glyph a code shows, as sixteen lines of two bytes.

use crate::modes::Version;
use calls::{FontsLent, Refusal};

/// Sixteen lines, left byte and right byte.
pub type Glyph = [[u8; 2]; 16];

/// Sixteen lines of one byte.
pub type Half = [u8; 16];

/// The bytes of a font from `start` on, GLYPH where the font ends before that.
fn part(font: &[u8], start: usize, len: usize) -> Result<&[u8], Refusal> {
    font.get(start..start + len).ok_or(Refusal::Glyph)
}

/// A code below 128.
pub fn ascii(fonts: &FontsLent, code: u8) -> Result<Half, Refusal> {
    let bytes = part(fonts.ascii16(), code as usize * 16, 16)?;
    Ok(std::array::from_fn(|line| bytes[line]))
}

/// A byte in hexadecimal: the high digit in the upper eight lines, the low one below.
pub fn hexadecimal(fonts: &FontsLent, byte: u8) -> Result<Half, Refusal> {
    let digit = |value: u8| {
        let code = if value < 10 { b'0' + value } else { b'A' + value - 10 };
        part(fonts.ascii8(), 8 * code as usize, 8)
    };
    let (high, low) = (digit(byte / 16)?, digit(byte % 16)?);
    Ok(std::array::from_fn(|line| if line < 8 { high[line] } else { low[line - 8] }))
}

/// A pair's glyph: emoji, GB, extra list. `None`: it shows in hexadecimal.
pub fn pair(version: Version, fonts: &FontsLent, lead: u8, trail: u8) -> Result<Option<Glyph>, Refusal> {
    let bytes = if let Some(index) = emoji_index(version, lead, trail) {
        part(fonts.emoji(), index * 32, 32)?
    } else if let Some(index) = gb_index(lead, trail) {
        part(fonts.gb(), index * 32, 32)?
    } else if let Some(offset) = extra_offset(fonts, lead, trail) {
        part(fonts.extra_font(), offset, 32)?
    } else {
        return Ok(None);
    };
    Ok(Some(std::array::from_fn(|line| [bytes[2 * line], bytes[2 * line + 1]])))
}

/// The rows of codes of a version, each a lead with its first and last trail. An emoji's index is
/// its place among all of these codes.
fn emoji_rows(version: Version) -> &'static [(u8, u8, u8)] {
    match version {
        Version::V1 => &[
            (0xfa, 0x46, 0x7e),
            (0xfa, 0xa1, 0xfe),
            (0xfb, 0x40, 0x7e),
            (0xfb, 0xa1, 0xfe),
            (0xfc, 0x40, 0x7e),
            (0xfc, 0xa1, 0xfe),
            (0xfd, 0x40, 0x7d),
        ],
        Version::V2 => &[
            (0xf8, 0xa1, 0xfe),
            (0xf9, 0xa1, 0xfe),
            (0xfa, 0xa1, 0xfe),
            (0xfb, 0xa1, 0xfe),
            (0xfc, 0xa1, 0xfe),
            (0xfd, 0xa1, 0xd9),
        ],
    }
}

fn emoji_index(version: Version, lead: u8, trail: u8) -> Option<usize> {
    let mut before = 0;
    for &(row, first, last) in emoji_rows(version) {
        if lead == row && (first..=last).contains(&trail) {
            return Some(before + (trail - first) as usize);
        }
        before += (last - first) as usize + 1;
    }
    None
}

/// Leads 161-169 and 176-247. Rows 10-15 between them, empty in the standard, are no GB codes, and
/// the font leaves them out.
fn gb_index(lead: u8, trail: u8) -> Option<usize> {
    if !matches!(lead, 161..=169 | 176..=247) || !(161..=254).contains(&trail) {
        return None;
    }
    let section = lead as usize - 161;
    let section = if section > 8 { section - 6 } else { section };
    Some(94 * section + trail as usize - 161)
}

/// The first entry with this code counts.
fn extra_offset(fonts: &FontsLent, lead: u8, trail: u8) -> Option<usize> {
    let code = lead as u16 * 256 + trail as u16;
    fonts.extra_entries().find(|entry| entry.0 == code).map(|entry| entry.1)
}

#[cfg(test)]
mod tests {
    use super::*;

    #[test]
    fn known_emoji_codes() {
        assert_eq!(emoji_index(Version::V1, 0xfa, 0x46), Some(0));
        assert_eq!(emoji_index(Version::V1, 0xfd, 0x7d), Some(526));
        assert_eq!(emoji_index(Version::V2, 0xf8, 0xa1), Some(0));
        assert_eq!(emoji_index(Version::V2, 0xfd, 0xd9), Some(526));
    }

    #[test]
    fn gb_codes_around_the_empty_rows() {
        assert_eq!(gb_index(0xa1, 0xa1), Some(0));
        assert_eq!(gb_index(0xa9, 0xfe), Some(845));
        assert_eq!(gb_index(0xb0, 0xa1), Some(846));
        assert_eq!(gb_index(0xf7, 0xfe), Some(7613));
        for lead in 0xaa..=0xaf {
            assert!((0..=255).all(|trail| gb_index(lead, trail).is_none()), "{lead:#x}");
        }
    }
}
