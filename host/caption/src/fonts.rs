use caption_sys::layout::EXTRA_ENTRY;
use core::error::Error;
use core::fmt;

/// What a flush paints text with. Empty ones do where no glyph of theirs is used.
///
/// ```
/// use caption::{Fonts, Refusal, Screen, Setup};
///
/// let mut screen = Screen::open(&Setup::new())?;
/// screen.flush(&Fonts::default())?; // nothing is printed yet
/// screen.print(b"A")?;
/// assert_eq!(screen.flush(&Fonts::default()), Err(Refusal::Glyph));
/// let ascii16 = [0x7e; 16 * 128];
/// screen.flush(&Fonts { ascii16: &ascii16, ..Fonts::default() })?;
/// assert!(screen.check_point(1, 0)?);
/// # Ok::<(), Refusal>(())
/// ```
#[derive(Debug, Clone, Copy, PartialEq, Eq, Default)]
pub struct Fonts<'a> {
    /// 8 bytes a character, of which hexadecimal digits are taken; 568 bytes have them all.
    pub ascii8: &'a [u8],
    /// 16 bytes a character; 2,048 bytes have 0 to 127.
    pub ascii16: &'a [u8],
    /// 32 bytes a pair of GB 2312-80; 243,648 bytes have them all.
    pub gb: &'a [u8],
    /// 32 bytes an emoji; 16,864 bytes have them all.
    pub emoji: &'a [u8],
    /// Where in `extra_font` further pairs have their glyphs: [`ExtraList::bytes`].
    pub extra_list: &'a [u8],
    /// 32 bytes from each offset of the list on.
    pub extra_font: &'a [u8],
}

/// An extra list: up to `N` pairs of bytes with the places of their glyphs in the extra font.
///
/// ```
/// use caption::{ExtraList, Fonts, Screen, Setup};
///
/// let mut extra = ExtraList::<8>::new();
/// extra.push([0xfe, 0x50], 0)?;
/// let fonts = Fonts { extra_list: extra.bytes(), extra_font: &[0xff; 32], ..Fonts::default() };
/// let mut screen = Screen::open(&Setup::new())?;
/// screen.print(&[0xfe, 0x50])?;
/// screen.flush(&fonts)?;
/// assert!(screen.check_point(15, 15)?);
/// # Ok::<(), Box<dyn std::error::Error>>(())
/// ```
#[derive(Debug, Clone, Copy, PartialEq, Eq)]
pub struct ExtraList<const N: usize> {
    entries: [[u8; EXTRA_ENTRY]; N],
    length: usize,
}

impl<const N: usize> ExtraList<N> {
    /// With no entry.
    ///
    /// ```
    /// assert!(caption::ExtraList::<4>::new().bytes().is_empty());
    /// ```
    pub const fn new() -> Self {
        Self { entries: [[0; EXTRA_ENTRY]; N], length: 0 }
    }

    /// One more: the pair's lead and trail byte, and where its 32 bytes begin in the extra font. Of several entries of one
    /// pair the first counts.
    ///
    /// ```
    /// let mut extra = caption::ExtraList::<1>::new();
    /// extra.push([0xfe, 0x50], 32)?;
    /// assert!(extra.push([0xfe, 0x51], 64).is_err());
    /// # Ok::<(), caption::Full>(())
    /// ```
    pub fn push(&mut self, [lead, trail]: [u8; 2], offset: u32) -> Result<(), Full> {
        let entry = self.entries.get_mut(self.length).ok_or(Full)?;
        let [a, b, c, d] = offset.to_le_bytes();
        *entry = [trail, lead, a, b, c, d];
        self.length += 1;
        Ok(())
    }

    /// As [`Fonts`] lends it: 6 bytes an entry.
    ///
    /// ```
    /// let mut extra = caption::ExtraList::<4>::new();
    /// extra.push([0xfe, 0x50], 32)?;
    /// assert_eq!(extra.bytes(), [0x50, 0xfe, 32, 0, 0, 0]);
    /// # Ok::<(), caption::Full>(())
    /// ```
    pub fn bytes(&self) -> &[u8] {
        self.entries[..self.length].as_flattened()
    }
}

impl<const N: usize> Default for ExtraList<N> {
    fn default() -> Self {
        Self::new()
    }
}

/// An extra list has as many entries as it can hold.
///
/// ```
/// assert_eq!(caption::ExtraList::<0>::new().push([0xfe, 0x50], 0), Err(caption::Full));
/// ```
#[derive(Debug, Clone, Copy, PartialEq, Eq)]
pub struct Full;

impl fmt::Display for Full {
    fn fmt(&self, f: &mut fmt::Formatter<'_>) -> fmt::Result {
        f.write_str("the extra list has as many entries as it can hold")
    }
}

impl Error for Full {}
