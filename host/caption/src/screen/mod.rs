//! A screen with its panels.

mod draw;
mod drive;
mod look;
mod memory;
mod send;
mod text;

pub use memory::LoadError;
pub use send::{Sends, Sent};

use crate::place::Bytes;
use crate::refusal::done;
use crate::{Borrowed, Caller, Glass, Owned, Panel, Place, Refusal, Setup, calls};
use caption_sys::layout;
use core::fmt;

/// A screen: its record, its memory and its panels, in one value or in buffers of the host. All of it can be read, and only
/// the calls write it, so that what the core proves of lists of calls from an open on holds of it at any time.
///
/// Every call answers a [`Refusal`] where its condition does not hold, and then nothing has changed.
///
/// ```
/// use caption::{DrawMode, Screen, Setup};
///
/// let mut screen = Screen::open(&Setup::new())?;
/// screen.draw_line(0, 0, 159, 79, DrawMode::Or)?;
/// assert_eq!(screen.sends(0).count(), 80);
/// assert_eq!(screen.panel(0)?, screen.screen());
/// # Ok::<(), caption::Refusal>(())
/// ```
pub struct Screen<P: Place = Owned> {
    glass: Glass,
    caller: Caller,
    record: P::Record,
    memory: P::Memory,
    panels: [Panel<P>; layout::PANELS],
}

impl Screen {
    /// A screen that owns its bytes, with four panels that are sent to directly.
    ///
    /// ```
    /// use caption::{Screen, Setup};
    ///
    /// let screen = Screen::open(&Setup::new())?;
    /// assert_eq!(screen.lines_left(3)?, 80);
    /// # Ok::<(), caption::Refusal>(())
    /// ```
    pub fn open(setup: &Setup) -> Result<Self, Refusal> {
        Self::open_with(setup, [const { Panel::direct() }; layout::PANELS])
    }

    /// One with these panels, numbered 0 to 3.
    ///
    /// ```
    /// use caption::{Controller, Panel, Screen, Setup};
    ///
    /// let panels = [Panel::direct(), Panel::driven(Controller::new()), Panel::absent(), Panel::absent()];
    /// let screen = Screen::open_with(&Setup::new(), panels)?;
    /// # Ok::<(), caption::Refusal>(())
    /// ```
    pub fn open_with(setup: &Setup, panels: [Panel; layout::PANELS]) -> Result<Self, Refusal> {
        opened(setup, [0; layout::RECORD], [0; layout::MEMORY], panels)
    }
}

impl<'a> Screen<Borrowed<'a>> {
    /// One in buffers of the host: record and memory are as long as the [`Glass`] says, and so are the panels.
    ///
    /// ```
    /// use caption::{Glass, Panel, Refusal, Screen, Setup};
    ///
    /// const GLASS: Glass = Glass::Small;
    /// let (mut record, mut memory) = (vec![0; GLASS.record_bytes()], vec![0; GLASS.memory_bytes()]);
    /// let mut buffer = vec![0; GLASS.panel_bytes()];
    /// let panels = [Panel::direct_in(&mut buffer), Panel::absent(), Panel::absent(), Panel::absent()];
    /// let screen = Screen::open_in(&Setup::new(), &mut record, &mut memory, panels)?;
    /// # Ok::<(), Refusal>(())
    /// ```
    pub fn open_in(
        setup: &Setup,
        record: &'a mut [u8],
        memory: &'a mut [u8],
        panels: [Panel<Borrowed<'a>>; layout::PANELS],
    ) -> Result<Self, Refusal> {
        opened(setup, record, memory, panels)
    }
}

fn opened<P: Place>(
    setup: &Setup,
    mut record: P::Record,
    mut memory: P::Memory,
    panels: [Panel<P>; layout::PANELS],
) -> Result<Screen<P>, Refusal> {
    let Setup { glass, caller, graphics_base, text_base, version, keys, edge } = *setup;
    if !panels.iter().all(|panel| panel.fits(glass)) {
        return Err(Refusal::Lent);
    }
    let [k0, k1, k2, k3, k4, k5, k6, k7] = keys.words;
    #[rustfmt::skip]
    let code = calls::open(
        record.bytes_mut(), memory.bytes_mut(),
        graphics_base, text_base, version as u8, k0, k1, k2, k3, k4, k5, k6, k7, edge as u8,
    );
    done(code)?;
    Ok(Screen { glass, caller, record, memory, panels })
}

impl<P: Place> Screen<P> {
    /// The same screen, for calls by this caller.
    ///
    /// ```
    /// use caption::{Caller, DrawMode, Screen, Setup};
    ///
    /// let mut screen = Screen::open(&Setup::new())?;
    /// screen.by(Caller::Zero).draw_point(3, 0, DrawMode::Or)?;
    /// assert!(screen.check_point(3, 0)?);
    /// # Ok::<(), caption::Refusal>(())
    /// ```
    pub fn by(&mut self, caller: Caller) -> Screen<Borrowed<'_>> {
        Screen {
            glass: self.glass,
            caller,
            record: self.record.bytes_mut(),
            memory: self.memory.bytes_mut(),
            panels: self.panels.each_mut().map(Panel::lend),
        }
    }

    /// Opens it again, with what it was opened with. What the panels have in hand and how many lines were sent stays.
    ///
    /// ```
    /// use caption::{DrawMode, Screen, Setup};
    ///
    /// let mut screen = Screen::open(&Setup::new())?;
    /// screen.draw_point(3, 0, DrawMode::Or)?;
    /// screen.reset()?;
    /// assert!(!screen.check_point(3, 0)?);
    /// # Ok::<(), caption::Refusal>(())
    /// ```
    pub fn reset(&mut self) -> Result<(), Refusal> {
        let (record, memory) = self.lend();
        done(calls::reset(record, memory))
    }

    /// What most calls are lent.
    fn lend(&mut self) -> (&mut [u8], &mut [u8]) {
        (self.record.bytes_mut(), self.memory.bytes_mut())
    }
}

impl<P: Place> fmt::Debug for Screen<P> {
    fn fmt(&self, f: &mut fmt::Formatter<'_>) -> fmt::Result {
        let lines_left = [0, 1, 2, 3].map(|number| self.lines_left(number).unwrap_or_default());
        f.debug_struct("Screen")
            .field("glass", &self.glass)
            .field("caller", &self.caller)
            .field("dirty", &self.dirty())
            .field("lines_left", &lines_left)
            .finish_non_exhaustive()
    }
}
