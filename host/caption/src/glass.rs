use caption_sys::layout;

/// A kind of glass: its size, and with it the lengths of what is lent.
///
/// ```
/// use caption::Glass;
///
/// let glass = Glass::default();
/// assert_eq!((glass.width(), glass.height()), (160, 80));
/// assert_eq!((glass.columns(), glass.rows()), (20, 5));
/// ```
#[derive(Debug, Clone, Copy, PartialEq, Eq, Hash, Default)]
#[non_exhaustive]
pub enum Glass {
    /// At the seat: 160 by 80 pixels, 5 rows of 20 cells.
    #[default]
    Small,
}

impl Glass {
    /// Pixels of a line.
    ///
    /// ```
    /// assert_eq!(caption::Glass::Small.width(), 160);
    /// ```
    pub const fn width(self) -> u16 {
        layout::WIDTH as u16
    }

    /// Lines of pixels.
    ///
    /// ```
    /// assert_eq!(caption::Glass::Small.height(), 80);
    /// ```
    pub const fn height(self) -> u16 {
        layout::HEIGHT as u16
    }

    /// Rows of text.
    ///
    /// ```
    /// assert_eq!(caption::Glass::Small.rows(), 5);
    /// ```
    pub const fn rows(self) -> u8 {
        layout::ROWS as u8
    }

    /// Cells of a row.
    ///
    /// ```
    /// assert_eq!(caption::Glass::Small.columns(), 20);
    /// ```
    pub const fn columns(self) -> u8 {
        layout::COLUMNS as u8
    }

    /// Bands of 16 lines, one for each row of text.
    ///
    /// ```
    /// assert_eq!(caption::Glass::Small.bands(), 5);
    /// ```
    pub const fn bands(self) -> usize {
        layout::BANDS
    }

    /// Bytes of a line of pixels.
    ///
    /// ```
    /// assert_eq!(caption::Glass::Small.line_bytes(), 20);
    /// ```
    pub const fn line_bytes(self) -> usize {
        layout::LINE
    }

    /// Bytes of a panel, of a driven panel's image, and of the screen in memory.
    ///
    /// ```
    /// assert_eq!(caption::Glass::Small.panel_bytes(), 1_600);
    /// ```
    pub const fn panel_bytes(self) -> usize {
        layout::PANEL
    }

    /// Bytes of the record.
    ///
    /// ```
    /// assert_eq!(caption::Glass::Small.record_bytes(), 359);
    /// ```
    pub const fn record_bytes(self) -> usize {
        layout::RECORD
    }

    /// Bytes of memory.
    ///
    /// ```
    /// assert_eq!(caption::Glass::Small.memory_bytes(), 65_536);
    /// ```
    pub const fn memory_bytes(self) -> usize {
        layout::MEMORY
    }
}

/// Who makes a call: see [`Screen::by`](crate::Screen::by).
///
/// ```
/// use caption::Caller;
///
/// assert_eq!(Caller::default(), Caller::Zero);
/// ```
#[derive(Debug, Clone, Copy, PartialEq, Eq, Hash, Default)]
#[non_exhaustive]
pub enum Caller {
    /// The one who opens the screen, and may make every call.
    #[default]
    Zero,
}
