//! Text: rows of cells, a byte and an inverse flag each. It shows on the screen after the next flush.

use super::Screen;
use crate::place::Bytes;
use crate::refusal::done;
use crate::{Fonts, Place, PrintMode, Refusal, ScreenMode, calls};

impl<P: Place> Screen<P> {
    /// Bytes into the cells from row and column on. A byte from 128 on is a pair with the one after it. No byte is a control
    /// code; past the last row the text scrolls.
    ///
    /// ```
    /// use caption::{Screen, Setup};
    ///
    /// let mut screen = Screen::open(&Setup::new())?;
    /// screen.print(b"I was in the hall.")?;
    /// assert!(screen.text().starts_with(b"I was in the hall."));
    /// assert_eq!(screen.column()?, 18);
    /// # Ok::<(), caption::Refusal>(())
    /// ```
    pub fn print(&mut self, text: &[u8]) -> Result<(), Refusal> {
        let (record, memory) = self.lend();
        done(calls::print(record, memory, text))
    }

    /// The next row, unless column is 0 already. At the last row the text scrolls.
    ///
    /// ```
    /// use caption::{Screen, Setup};
    ///
    /// let mut screen = Screen::open(&Setup::new())?;
    /// screen.print(b"I was")?;
    /// screen.newline()?;
    /// assert_eq!((screen.row()?, screen.column()?), (1, 0));
    /// # Ok::<(), caption::Refusal>(())
    /// ```
    pub fn newline(&mut self) -> Result<(), Refusal> {
        let (record, memory) = self.lend();
        done(calls::newline(record, memory))
    }

    /// Clears text and screen, and begins at row and column 0 again. Modes and cursor stay.
    ///
    /// ```
    /// use caption::{Screen, Setup};
    ///
    /// let mut screen = Screen::open(&Setup::new())?;
    /// screen.print(b"I was")?;
    /// screen.cls()?;
    /// assert_eq!(screen.text(), [0; 100]);
    /// # Ok::<(), caption::Refusal>(())
    /// ```
    pub fn cls(&mut self) -> Result<(), Refusal> {
        let (record, memory) = self.lend();
        done(calls::cls(record, memory))
    }

    /// Paints the text onto the screen.
    ///
    /// ```
    /// use caption::{Fonts, Screen, Setup};
    ///
    /// let mut screen = Screen::open(&Setup::new())?;
    /// screen.print(b"I was")?;
    /// screen.flush(&Fonts { ascii16: &[0x7e; 2_048], ..Fonts::default() })?;
    /// assert!(screen.check_point(1, 0)?);
    /// # Ok::<(), caption::Refusal>(())
    /// ```
    pub fn flush(&mut self, fonts: &Fonts) -> Result<(), Refusal> {
        let Fonts { ascii8, ascii16, gb, emoji, extra_list, extra_font } = *fonts;
        let (record, memory) = self.lend();
        done(calls::flush(record, memory, ascii8, ascii16, gb, emoji, extra_list, extra_font))
    }

    /// The row of the next byte that is printed.
    ///
    /// ```
    /// assert_eq!(caption::Screen::open(&caption::Setup::new())?.row()?, 0);
    /// # Ok::<(), caption::Refusal>(())
    /// ```
    pub fn row(&self) -> Result<u8, Refusal> {
        let answer = calls::get_row(self.record.bytes());
        done(answer.code).map(|()| answer.value as u8)
    }

    /// Its column.
    ///
    /// ```
    /// assert_eq!(caption::Screen::open(&caption::Setup::new())?.column()?, 0);
    /// # Ok::<(), caption::Refusal>(())
    /// ```
    pub fn column(&self) -> Result<u8, Refusal> {
        let answer = calls::get_column(self.record.bytes());
        done(answer.code).map(|()| answer.value as u8)
    }

    /// Another row, 0 to 4; the column stays.
    ///
    /// ```
    /// use caption::{Refusal, Screen, Setup};
    ///
    /// let mut screen = Screen::open(&Setup::new())?;
    /// screen.set_row(4)?;
    /// assert_eq!(screen.set_row(5), Err(Refusal::Value));
    /// assert_eq!(screen.row()?, 4);
    /// # Ok::<(), Refusal>(())
    /// ```
    pub fn set_row(&mut self, row: u8) -> Result<(), Refusal> {
        done(calls::set_row(self.record.bytes_mut(), row))
    }

    /// Another column, 0 to 19; the row stays.
    ///
    /// ```
    /// use caption::{Refusal, Screen, Setup};
    ///
    /// let mut screen = Screen::open(&Setup::new())?;
    /// screen.set_column(19)?;
    /// assert_eq!(screen.set_column(20), Err(Refusal::Value));
    /// assert_eq!(screen.column()?, 19);
    /// # Ok::<(), Refusal>(())
    /// ```
    pub fn set_column(&mut self, column: u8) -> Result<(), Refusal> {
        done(calls::set_column(self.record.bytes_mut(), column))
    }

    /// Clears text and screen as [`cls`](Self::cls) does, and sets the mode.
    ///
    /// ```
    /// use caption::{Screen, ScreenMode, Setup};
    ///
    /// let mut screen = Screen::open(&Setup::new())?;
    /// screen.set_screen_mode(ScreenMode::Graph)?;
    /// assert_eq!(screen.screen_mode(), ScreenMode::Graph);
    /// # Ok::<(), caption::Refusal>(())
    /// ```
    pub fn set_screen_mode(&mut self, mode: ScreenMode) -> Result<(), Refusal> {
        let (record, memory) = self.lend();
        done(calls::set_screen_mode(record, memory, mode as u8))
    }

    /// For what is printed from now on.
    ///
    /// ```
    /// use caption::{PrintMode, Screen, Setup};
    ///
    /// let mut screen = Screen::open(&Setup::new())?;
    /// screen.set_print_mode(PrintMode::Inverse)?;
    /// screen.set_print_mode(PrintMode::Flash)?; // while it is Inverse
    /// assert_eq!(screen.print_mode(), PrintMode::Normal);
    /// # Ok::<(), caption::Refusal>(())
    /// ```
    pub fn set_print_mode(&mut self, mode: PrintMode) -> Result<(), Refusal> {
        done(calls::set_print_mode(self.record.bytes_mut(), mode as u8))
    }

    /// In Text: shows the cursor by inverting the cell at row and column on the screen, or inverts it away. In Graph
    /// nothing. Where the cursor is shown is not kept: clear it before row, column or text change.
    ///
    /// ```
    /// use caption::{Screen, Setup};
    ///
    /// let mut screen = Screen::open(&Setup::new())?;
    /// screen.blink_cursor()?;
    /// assert!(screen.check_point(7, 15)?);
    /// screen.blink_cursor()?;
    /// assert!(!screen.check_point(7, 15)?);
    /// # Ok::<(), caption::Refusal>(())
    /// ```
    pub fn blink_cursor(&mut self) -> Result<(), Refusal> {
        let (record, memory) = self.lend();
        done(calls::blink_cursor(record, memory))
    }

    /// Inverts the cursor away if it is shown in Text.
    ///
    /// ```
    /// use caption::{Cursor, Screen, Setup};
    ///
    /// let mut screen = Screen::open(&Setup::new())?;
    /// screen.blink_cursor()?;
    /// screen.clear_cursor()?;
    /// assert_eq!(screen.cursor(), Cursor::None);
    /// # Ok::<(), caption::Refusal>(())
    /// ```
    pub fn clear_cursor(&mut self) -> Result<(), Refusal> {
        let (record, memory) = self.lend();
        done(calls::clear_cursor(record, memory))
    }
}
