use caption_sys::layout;
use core::ops::Deref;

/// A rectangle of pixels: `right` and `bottom` are not included. Four zeros are the empty one.
///
/// ```
/// use caption::{DrawMode, Rect, Screen, Setup};
///
/// let mut screen = Screen::open(&Setup::new())?;
/// screen.draw_line(3, 5, 9, 6, DrawMode::Or)?;
/// assert_eq!(screen.dirty(), Rect { left: 3, top: 5, right: 10, bottom: 7 });
/// # Ok::<(), caption::Refusal>(())
/// ```
#[derive(Debug, Clone, Copy, PartialEq, Eq, Hash, Default)]
pub struct Rect {
    /// The first column.
    pub left: u16,
    /// The first line.
    pub top: u16,
    /// The column after the last.
    pub right: u16,
    /// The line after the last.
    pub bottom: u16,
}

impl Rect {
    /// The one that begins at this byte of a record.
    pub(crate) const fn at(record: &[u8], place: usize) -> Self {
        let [left, top, right, bottom] = layout::four(record, place);
        Self { left, top, right, bottom }
    }

    /// Whether it has no pixel.
    ///
    /// ```
    /// assert!(caption::Rect::default().is_empty());
    /// ```
    pub const fn is_empty(self) -> bool {
        self.left >= self.right || self.top >= self.bottom
    }

    /// How many lines it has.
    ///
    /// ```
    /// assert_eq!(caption::Rect { left: 0, top: 16, right: 160, bottom: 32 }.lines(), 16);
    /// ```
    pub const fn lines(self) -> u32 {
        self.bottom.saturating_sub(self.top) as u32
    }

    /// Whether it has this pixel.
    ///
    /// ```
    /// let rect = caption::Rect { left: 3, top: 0, right: 4, bottom: 1 };
    /// assert!(rect.contains(3, 0) && !rect.contains(4, 0));
    /// ```
    pub const fn contains(self, x: u16, y: u16) -> bool {
        self.left <= x && x < self.right && self.top <= y && y < self.bottom
    }
}

/// What a panel is owed: a rectangle for each band of 16 lines, from the top down. It is a slice of them.
///
/// ```
/// use caption::{Rect, Screen, Setup};
///
/// let owed = Screen::open(&Setup::new())?.owed(0)?;
/// assert_eq!(owed.len(), 5);
/// assert_eq!(owed[1], Rect { left: 0, top: 16, right: 160, bottom: 32 });
/// # Ok::<(), caption::Refusal>(())
/// ```
#[derive(Debug, Clone, Copy, PartialEq, Eq)]
pub struct Owed {
    bands: [Rect; layout::BANDS],
}

impl Owed {
    pub(crate) fn at(record: &[u8], panel: usize) -> Self {
        Self { bands: core::array::from_fn(|band| Rect::at(record, layout::owed(panel, band))) }
    }

    /// How many lines these are, added up.
    ///
    /// ```
    /// assert_eq!(caption::Screen::open(&caption::Setup::new())?.owed(0)?.lines(), 80);
    /// # Ok::<(), caption::Refusal>(())
    /// ```
    pub fn lines(&self) -> u32 {
        self.iter().map(|rect| rect.lines()).sum()
    }
}

impl Deref for Owed {
    type Target = [Rect];
    fn deref(&self) -> &[Rect] {
        &self.bands
    }
}
