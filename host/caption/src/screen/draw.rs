//! Drawing.

use super::Screen;
use crate::place::Bytes;
use crate::refusal::done;
use crate::{DrawMode, Fill, PaintMode, Place, Refusal, calls};

impl<P: Place> Screen<P> {
    /// One pixel. Off the screen nothing is drawn.
    ///
    /// ```
    /// use caption::{DrawMode, Screen, Setup};
    ///
    /// let mut screen = Screen::open(&Setup::new())?;
    /// screen.draw_point(3, 0, DrawMode::Or)?;
    /// assert!(screen.check_point(3, 0)?);
    /// # Ok::<(), caption::Refusal>(())
    /// ```
    pub fn draw_point(&mut self, x: u8, y: u8, mode: DrawMode) -> Result<(), Refusal> {
        let (record, memory) = self.lend();
        done(calls::draw_point(record, memory, x, y, mode as u8))
    }

    /// A line from (x1, y1) to (x2, y2), both included.
    ///
    /// ```
    /// use caption::{DrawMode, Screen, Setup};
    ///
    /// let mut screen = Screen::open(&Setup::new())?;
    /// screen.draw_line(0, 0, 9, 9, DrawMode::Or)?;
    /// assert!(screen.check_point(5, 5)?);
    /// # Ok::<(), caption::Refusal>(())
    /// ```
    pub fn draw_line(&mut self, x1: u8, y1: u8, x2: u8, y2: u8, mode: DrawMode) -> Result<(), Refusal> {
        let (record, memory) = self.lend();
        done(calls::draw_line(record, memory, x1, y1, x2, y2, mode as u8))
    }

    /// A box with opposite corners (x1, y1) and (x2, y2).
    ///
    /// ```
    /// use caption::{DrawMode, Fill, Screen, Setup};
    ///
    /// let mut screen = Screen::open(&Setup::new())?;
    /// screen.draw_box(10, 10, 149, 69, Fill::Outline, DrawMode::Or)?;
    /// assert!(screen.check_point(149, 40)?);
    /// # Ok::<(), caption::Refusal>(())
    /// ```
    pub fn draw_box(&mut self, x1: u8, y1: u8, x2: u8, y2: u8, fill: Fill, mode: DrawMode) -> Result<(), Refusal> {
        let (record, memory) = self.lend();
        done(calls::draw_box(record, memory, x1, y1, x2, y2, fill as u8, mode as u8))
    }

    /// A circle of radius r, up to 127, round (x, y).
    ///
    /// ```
    /// use caption::{DrawMode, Fill, Refusal, Screen, Setup};
    ///
    /// let mut screen = Screen::open(&Setup::new())?;
    /// screen.draw_circle(80, 40, 20, Fill::Filled, DrawMode::Or)?;
    /// assert!(screen.check_point(80, 21)?);
    /// assert_eq!(screen.draw_circle(80, 40, 128, Fill::Filled, DrawMode::Or), Err(Refusal::Radius));
    /// # Ok::<(), Refusal>(())
    /// ```
    pub fn draw_circle(&mut self, x: u8, y: u8, r: u8, fill: Fill, mode: DrawMode) -> Result<(), Refusal> {
        let (record, memory) = self.lend();
        done(calls::draw_circle(record, memory, x, y, r, fill as u8, mode as u8))
    }

    /// An ellipse with radii rx and ry, up to 127, round (x, y).
    ///
    /// ```
    /// use caption::{DrawMode, Fill, Screen, Setup};
    ///
    /// let mut screen = Screen::open(&Setup::new())?;
    /// screen.draw_ellipse(80, 40, 30, 10, Fill::Outline, DrawMode::Or)?;
    /// assert!(screen.check_point(110, 40)?);
    /// # Ok::<(), caption::Refusal>(())
    /// ```
    pub fn draw_ellipse(&mut self, x: u8, y: u8, rx: u8, ry: u8, fill: Fill, mode: DrawMode) -> Result<(), Refusal> {
        let (record, memory) = self.lend();
        done(calls::draw_ellipse(record, memory, x, y, rx, ry, fill as u8, mode as u8))
    }

    /// Whether a pixel is set. None off the screen is.
    ///
    /// ```
    /// use caption::{Screen, Setup};
    ///
    /// let screen = Screen::open(&Setup::new())?;
    /// assert!(!screen.check_point(3, 0)? && !screen.check_point(-1, 80)?);
    /// # Ok::<(), caption::Refusal>(())
    /// ```
    pub fn check_point(&self, x: i32, y: i32) -> Result<bool, Refusal> {
        let answer = calls::check_point(self.record.bytes(), self.memory.bytes(), x, y);
        done(answer.code).map(|()| answer.value != 0)
    }

    /// A bitmap at (x, y), clipped to the screen. Its source lies in memory from the address on ([`load`](Self::load)):
    /// `height` lines of `(width + 7) / 8` bytes, the leftmost pixel in the highest bit.
    ///
    /// ```
    /// use caption::{PaintMode, Screen, Setup};
    ///
    /// let mut screen = Screen::open(&Setup::new())?;
    /// screen.load(0x2100, &[0xf0, 0x90, 0x90, 0xf0])?;
    /// screen.paint_bitmap(0x2100, 100, 30, 4, 4, PaintMode::Copy)?;
    /// assert!(screen.check_point(100, 33)? && !screen.check_point(101, 32)?);
    /// # Ok::<(), Box<dyn std::error::Error>>(())
    /// ```
    pub fn paint_bitmap(
        &mut self,
        address: u16,
        x: i32,
        y: i32,
        width: u8,
        height: u8,
        mode: PaintMode,
    ) -> Result<(), Refusal> {
        let (record, memory) = self.lend();
        done(calls::paint_bitmap(record, memory, address, x, y, width, height, mode as u8))
    }

    /// The same with the same outcome, a byte at a time: in a fraction of the time.
    ///
    /// ```
    /// use caption::{PaintMode, Screen, Setup};
    ///
    /// let mut screen = Screen::open(&Setup::new())?;
    /// screen.load(0x2100, &[0xf0, 0x90, 0x90, 0xf0])?;
    /// screen.paint_bitmap_by_bytes(0x2100, 100, 30, 4, 4, PaintMode::Copy)?;
    /// assert!(screen.check_point(100, 33)? && !screen.check_point(101, 32)?);
    /// # Ok::<(), Box<dyn std::error::Error>>(())
    /// ```
    pub fn paint_bitmap_by_bytes(
        &mut self,
        address: u16,
        x: i32,
        y: i32,
        width: u8,
        height: u8,
        mode: PaintMode,
    ) -> Result<(), Refusal> {
        let (record, memory) = self.lend();
        done(calls::paint_bitmap_by_bytes(record, memory, address, x, y, width, height, mode as u8))
    }
}
