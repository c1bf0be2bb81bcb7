//! What is on the screen and on the panels, and what is owed.

use super::Screen;
use crate::place::Bytes;
use crate::{Caller, Cursor, Edge, Glass, Owed, Picture, Place, PrintMode, Rect, Refusal, ScreenMode, Version};
use caption_sys::layout;

/// A panel's number as a place in the record.
fn place(number: u8) -> Result<usize, Refusal> {
    let place = usize::from(number);
    if place < layout::PANELS { Ok(place) } else { Err(Refusal::Panel) }
}

impl<P: Place> Screen<P> {
    /// What the screen shows.
    ///
    /// ```
    /// let screen = caption::Screen::open(&caption::Setup::new())?;
    /// assert!(!screen.screen().pixel(3, 0));
    /// # Ok::<(), caption::Refusal>(())
    /// ```
    pub fn screen(&self) -> Picture<'_> {
        let base = usize::from(self.graphics_base());
        Picture::new(self.glass, &self.memory()[base..base + self.glass.panel_bytes()])
    }

    /// What the panel of this number shows.
    ///
    /// ```
    /// use caption::{Refusal, Screen, Setup};
    ///
    /// let screen = Screen::open(&Setup::new())?;
    /// assert!(!screen.panel(0)?.pixel(3, 0));
    /// assert_eq!(screen.panel(4), Err(Refusal::Panel));
    /// # Ok::<(), Refusal>(())
    /// ```
    pub fn panel(&self, number: u8) -> Result<Picture<'_>, Refusal> {
        let bytes = self.panels[place(number)?].bytes().ok_or(Refusal::Lent)?;
        Ok(Picture::new(self.glass, bytes))
    }

    /// What was marked since the dirty area was last taken; [`take_dirty_area`](Self::take_dirty_area) empties it.
    ///
    /// ```
    /// use caption::{DrawMode, Rect, Screen, Setup};
    ///
    /// let mut screen = Screen::open(&Setup::new())?;
    /// screen.draw_point(3, 0, DrawMode::Or)?;
    /// assert_eq!(screen.dirty(), Rect { left: 3, top: 0, right: 4, bottom: 1 });
    /// # Ok::<(), caption::Refusal>(())
    /// ```
    pub fn dirty(&self) -> Rect {
        Rect::at(self.record.bytes(), layout::DIRTY)
    }

    /// What the panel is owed, band by band.
    ///
    /// ```
    /// use caption::{DrawMode, Rect, Screen, Setup};
    ///
    /// let mut screen = Screen::open(&Setup::new())?;
    /// screen.sends(0).for_each(drop);
    /// screen.draw_point(3, 20, DrawMode::Or)?;
    /// assert_eq!(screen.owed(0)?[1], Rect { left: 3, top: 20, right: 4, bottom: 21 });
    /// # Ok::<(), caption::Refusal>(())
    /// ```
    pub fn owed(&self, number: u8) -> Result<Owed, Refusal> {
        Ok(Owed::at(self.record.bytes(), place(number)?))
    }

    /// What the panel has in hand: the rest of a band whose lines are being sent.
    ///
    /// ```
    /// use caption::{Rect, Screen, Setup};
    ///
    /// let mut screen = Screen::open(&Setup::new())?;
    /// screen.send(0)?;
    /// assert_eq!(screen.in_hand(0)?, Rect { left: 0, top: 1, right: 160, bottom: 16 });
    /// # Ok::<(), caption::Refusal>(())
    /// ```
    pub fn in_hand(&self, number: u8) -> Result<Rect, Refusal> {
        Ok(Rect::at(self.record.bytes(), layout::in_hand(place(number)?)))
    }

    /// How many lines the panel has in hand and is owed, 95 at most: with so many sends, and no mark between, it is level
    /// with the screen.
    ///
    /// ```
    /// assert_eq!(caption::Screen::open(&caption::Setup::new())?.lines_left(0)?, 80);
    /// # Ok::<(), caption::Refusal>(())
    /// ```
    pub fn lines_left(&self, number: u8) -> Result<u32, Refusal> {
        Ok(self.in_hand(number)?.lines() + self.owed(number)?.lines())
    }

    /// How many lines were sent to the panel since the open; the count stays at its highest number.
    ///
    /// ```
    /// use caption::{Screen, Setup};
    ///
    /// let mut screen = Screen::open(&Setup::new())?;
    /// screen.send(2)?;
    /// assert_eq!((screen.lines_sent(2)?, screen.lines_sent(0)?), (1, 0));
    /// # Ok::<(), caption::Refusal>(())
    /// ```
    pub fn lines_sent(&self, number: u8) -> Result<u32, Refusal> {
        Ok(layout::double_word(self.record.bytes(), layout::lines_sent(place(number)?)))
    }

    /// The glass that it is for.
    ///
    /// ```
    /// assert_eq!(caption::Screen::open(&caption::Setup::new())?.glass(), caption::Glass::Small);
    /// # Ok::<(), caption::Refusal>(())
    /// ```
    pub const fn glass(&self) -> Glass {
        self.glass
    }

    /// Who makes its calls: see [`by`](Self::by).
    ///
    /// ```
    /// assert_eq!(caption::Screen::open(&caption::Setup::new())?.caller(), caption::Caller::Zero);
    /// # Ok::<(), caption::Refusal>(())
    /// ```
    pub const fn caller(&self) -> Caller {
        self.caller
    }

    /// The bytes of the record: docs/CALLS.md has its table.
    ///
    /// ```
    /// let screen = caption::Screen::open(&caption::Setup::new())?;
    /// assert_eq!(screen.record().len(), screen.glass().record_bytes());
    /// # Ok::<(), caption::Refusal>(())
    /// ```
    pub fn record(&self) -> &[u8] {
        self.record.bytes()
    }

    /// The bytes of memory. Bitmaps are put there by [`load`](Self::load).
    ///
    /// ```
    /// assert_eq!(caption::Screen::open(&caption::Setup::new())?.memory()[0xffff], 0x40);
    /// # Ok::<(), caption::Refusal>(())
    /// ```
    pub fn memory(&self) -> &[u8] {
        self.memory.bytes()
    }

    /// The bytes of the text cells, row by row; 0 where nothing is printed.
    ///
    /// ```
    /// assert_eq!(caption::Screen::open(&caption::Setup::new())?.text(), [0; 100]);
    /// # Ok::<(), caption::Refusal>(())
    /// ```
    pub fn text(&self) -> &[u8] {
        let base = usize::from(self.text_base());
        &self.memory()[base..base + layout::CELLS]
    }

    /// Whether the cell at this row and column is printed inverse. None off the screen is.
    ///
    /// ```
    /// assert!(!caption::Screen::open(&caption::Setup::new())?.is_inverse(4, 19));
    /// # Ok::<(), caption::Refusal>(())
    /// ```
    pub fn is_inverse(&self, row: u8, column: u8) -> bool {
        let cell = usize::from(row) * layout::COLUMNS + usize::from(column);
        row < self.glass.rows() && column < self.glass.columns() && self.record.bytes()[layout::FLAGS + cell] != 0
    }

    /// The address of the screen's first byte in memory.
    ///
    /// ```
    /// assert_eq!(caption::Screen::open(&caption::Setup::new())?.graphics_base(), 4_096);
    /// # Ok::<(), caption::Refusal>(())
    /// ```
    pub fn graphics_base(&self) -> u16 {
        layout::word(self.record.bytes(), layout::GRAPHICS_BASE)
    }

    /// The address of the text's first byte.
    ///
    /// ```
    /// assert_eq!(caption::Screen::open(&caption::Setup::new())?.text_base(), 8_192);
    /// # Ok::<(), caption::Refusal>(())
    /// ```
    pub fn text_base(&self) -> u16 {
        layout::word(self.record.bytes(), layout::TEXT_BASE)
    }

    /// The screen mode.
    ///
    /// ```
    /// assert_eq!(caption::Screen::open(&caption::Setup::new())?.screen_mode(), caption::ScreenMode::Text);
    /// # Ok::<(), caption::Refusal>(())
    /// ```
    pub fn screen_mode(&self) -> ScreenMode {
        ScreenMode::of(self.record.bytes()[layout::SCREEN_MODE])
    }

    /// The print mode.
    ///
    /// ```
    /// assert_eq!(caption::Screen::open(&caption::Setup::new())?.print_mode(), caption::PrintMode::Normal);
    /// # Ok::<(), caption::Refusal>(())
    /// ```
    pub fn print_mode(&self) -> PrintMode {
        PrintMode::of(self.record.bytes()[layout::PRINT_MODE])
    }

    /// The cursor that is shown.
    ///
    /// ```
    /// assert_eq!(caption::Screen::open(&caption::Setup::new())?.cursor(), caption::Cursor::None);
    /// # Ok::<(), caption::Refusal>(())
    /// ```
    pub fn cursor(&self) -> Cursor {
        Cursor::of(self.record.bytes()[layout::CURSOR])
    }

    /// Which codes are emoji.
    ///
    /// ```
    /// assert_eq!(caption::Screen::open(&caption::Setup::new())?.version(), caption::Version::V2);
    /// # Ok::<(), caption::Refusal>(())
    /// ```
    pub fn version(&self) -> Version {
        Version::of(self.record.bytes()[layout::VERSION])
    }

    /// What horizontal lines do beyond the screen's edge.
    ///
    /// ```
    /// assert_eq!(caption::Screen::open(&caption::Setup::new())?.edge(), caption::Edge::Clamp);
    /// # Ok::<(), caption::Refusal>(())
    /// ```
    pub fn edge(&self) -> Edge {
        Edge::of(self.record.bytes()[layout::EDGE])
    }
}
