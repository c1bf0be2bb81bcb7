//! What changed, and the sends that bring the panels level.

use super::Screen;
use crate::place::Bytes;
use crate::refusal::done;
use crate::{Owned, Picture, Place, Rect, Refusal, calls};
use core::iter::FusedIterator;

/// What a send answers.
///
/// ```
/// use caption::{Screen, Sent, Setup};
///
/// let mut screen = Screen::open(&Setup::new())?;
/// assert_eq!(screen.send(0)?, Sent::Line { y: 0, left: 0, right: 160 });
/// screen.sends(0).for_each(drop);
/// assert_eq!(screen.send(0)?, Sent::Idle);
/// # Ok::<(), caption::Refusal>(())
/// ```
#[derive(Debug, Clone, Copy, PartialEq, Eq, Hash)]
pub enum Sent {
    /// The pixels `left` to `right - 1` of line `y` are on the panel as they are on the screen now.
    Line {
        /// The line.
        y: u16,
        /// The first column.
        left: u16,
        /// The column after the last.
        right: u16,
    },
    /// Nothing is owed and nothing in hand: the panel is level with the screen.
    Idle,
}

impl Sent {
    fn of(answer: caption_sys::Sent) -> Result<Self, Refusal> {
        done(answer.code)?;
        let [y, left, right] = [answer.line, answer.left, answer.right].map(|number| number as u16); // up to 160
        Ok(if answer.sent == 0 { Self::Idle } else { Self::Line { y, left, right } })
    }
}

impl<P: Place> Screen<P> {
    /// One line to the panel of this number, directly or through its controller. Nothing of another panel changes.
    ///
    /// ```
    /// use caption::{Screen, Sent, Setup};
    ///
    /// let mut screen = Screen::open(&Setup::new())?;
    /// while let Sent::Line { y, left, right } = screen.send(0)? {
    ///     let line = screen.panel(0)?.line(y); // for the glass
    ///     # assert_eq!((line, left, right), (&[0; 20][..], 0, 160));
    /// }
    /// assert_eq!(screen.panel(0)?, screen.screen());
    /// # Ok::<(), caption::Refusal>(())
    /// ```
    pub fn send(&mut self, number: u8) -> Result<Sent, Refusal> {
        let panel = self.panels.get_mut(usize::from(number)).ok_or(Refusal::Panel)?;
        Sent::of(panel.send(self.record.bytes_mut(), self.memory.bytes(), number))
    }

    /// Sends to this panel until it is idle: [`lines_left`](Self::lines_left) lines. A refusal ends it too.
    ///
    /// ```
    /// use caption::{DrawMode, Screen, Setup};
    ///
    /// let mut screen = Screen::open(&Setup::new())?;
    /// assert_eq!(screen.sends(0).count(), 80);
    /// screen.draw_point(3, 0, DrawMode::Or)?;
    /// assert_eq!(screen.sends(0).count(), 1);
    /// # Ok::<(), caption::Refusal>(())
    /// ```
    pub fn sends(&mut self, number: u8) -> Sends<'_, P> {
        Sends { screen: self, number, ended: false }
    }

    /// The dirty area, which is empty afterwards. What the panels are owed stays.
    ///
    /// ```
    /// use caption::{DrawMode, Rect, Screen, Setup};
    ///
    /// let mut screen = Screen::open(&Setup::new())?;
    /// screen.draw_point(3, 0, DrawMode::Or)?;
    /// assert_eq!(screen.take_dirty_area()?, Rect { left: 3, top: 0, right: 4, bottom: 1 });
    /// assert!(screen.take_dirty_area()?.is_empty());
    /// # Ok::<(), caption::Refusal>(())
    /// ```
    pub fn take_dirty_area(&mut self) -> Result<Rect, Refusal> {
        let answer = calls::take_dirty_area(self.record.bytes_mut());
        done(answer.code)?;
        let numbers = [answer.left, answer.top, answer.right, answer.bottom];
        let [left, top, right, bottom] = numbers.map(|number| number as u16); // up to 256
        Ok(Rect { left, top, right, bottom })
    }
}

/// Sends to one panel, until it is idle: see [`Screen::sends`].
///
/// ```
/// use caption::{Screen, Sent, Setup};
///
/// let mut screen = Screen::open(&Setup::new())?;
/// let mut sends = screen.sends(0);
/// while let Some(sent) = sends.next() {
///     let Sent::Line { y, .. } = sent? else { break };
///     assert_eq!(sends.panel()?.line(y).len(), 20); // for the glass
/// }
/// # Ok::<(), caption::Refusal>(())
/// ```
#[derive(Debug)]
pub struct Sends<'s, P: Place = Owned> {
    screen: &'s mut Screen<P>,
    number: u8,
    ended: bool,
}

impl<P: Place> Sends<'_, P> {
    /// What the panel shows.
    ///
    /// ```
    /// let mut screen = caption::Screen::open(&caption::Setup::new())?;
    /// assert!(!screen.sends(0).panel()?.pixel(3, 0));
    /// # Ok::<(), caption::Refusal>(())
    /// ```
    pub fn panel(&self) -> Result<Picture<'_>, Refusal> {
        self.screen.panel(self.number)
    }
}

impl<P: Place> Iterator for Sends<'_, P> {
    type Item = Result<Sent, Refusal>;

    fn next(&mut self) -> Option<Self::Item> {
        if self.ended {
            return None;
        }
        let sent = self.screen.send(self.number);
        self.ended = !matches!(sent, Ok(Sent::Line { .. }));
        (sent != Ok(Sent::Idle)).then_some(sent)
    }
}

impl<P: Place> FusedIterator for Sends<'_, P> {}
