use crate::place::Bytes;
use crate::{Borrowed, Controller, Glass, Owned, Place, Refusal, calls};
use caption_sys::{Sent, layout};

/// A panel as a screen is opened with it: its number is its place among the four. It is sent to directly, or driven through
/// a [`Controller`], or the unit has none of this number.
///
/// ```
/// use caption::{Controller, Panel, Screen, Sent, Setup};
///
/// let panels = [Panel::direct(), Panel::driven(Controller::new()), Panel::absent(), Panel::absent()];
/// let mut screen = Screen::open_with(&Setup::new(), panels)?;
/// // One call for both.
/// assert_eq!(screen.send(0)?, Sent::Line { y: 0, left: 0, right: 160 });
/// assert_eq!(screen.send(1)?, Sent::Line { y: 0, left: 0, right: 160 });
/// # Ok::<(), caption::Refusal>(())
/// ```
#[derive(Debug)]
pub struct Panel<P: Place = Owned>(Kind<P>);

#[derive(Debug)]
enum Kind<P: Place> {
    Absent,
    Direct(P::Panel),
    /// The image has the bytes of the controller's panel. It is set to them as the driven panel is made, and from then on
    /// only driven sends write either.
    Driven(Controller<P>, P::Panel),
}

impl<P: Place> Panel<P> {
    /// None: what this number is owed stays owed, and sends to it are refused with [`Refusal::Lent`].
    ///
    /// ```
    /// use caption::{Panel, Refusal, Screen, Setup};
    ///
    /// let panels = [Panel::direct(), Panel::absent(), Panel::absent(), Panel::absent()];
    /// let mut screen = Screen::open_with(&Setup::new(), panels)?;
    /// assert_eq!(screen.send(1), Err(Refusal::Lent));
    /// # Ok::<(), Refusal>(())
    /// ```
    pub const fn absent() -> Self {
        Self(Kind::Absent)
    }
}

impl Panel {
    /// Sent to directly. It is dark at first.
    ///
    /// ```
    /// use caption::{Panel, Screen, Setup};
    ///
    /// let panels = [Panel::direct(), Panel::direct(), Panel::direct(), Panel::direct()];
    /// let screen = Screen::open_with(&Setup::new(), panels)?; // as `Screen::open`
    /// # Ok::<(), caption::Refusal>(())
    /// ```
    pub const fn direct() -> Self {
        Self(Kind::Direct([0; layout::PANEL]))
    }

    /// Driven through this controller, whose panel it is.
    ///
    /// ```
    /// use caption::{Controller, Panel, Screen, Setup};
    ///
    /// let panels = [Panel::driven(Controller::new()), Panel::direct(), Panel::direct(), Panel::direct()];
    /// let mut screen = Screen::open_with(&Setup::new(), panels)?;
    /// assert_eq!(screen.sends(0).count(), 80);
    /// # Ok::<(), caption::Refusal>(())
    /// ```
    pub const fn driven(controller: Controller) -> Self {
        let image = controller.panel;
        Self(Kind::Driven(controller, image))
    }
}

impl<'a> Panel<Borrowed<'a>> {
    /// Sent to directly, in a buffer of the host, which may hold anything.
    ///
    /// ```
    /// use caption::{Glass, Panel, Screen, Setup};
    ///
    /// const GLASS: Glass = Glass::Small;
    /// let (mut record, mut memory) = (vec![0; GLASS.record_bytes()], vec![0; GLASS.memory_bytes()]);
    /// let mut buffer = vec![0xff; GLASS.panel_bytes()];
    /// let panels = [Panel::direct_in(&mut buffer), Panel::absent(), Panel::absent(), Panel::absent()];
    /// let mut screen = Screen::open_in(&Setup::new(), &mut record, &mut memory, panels)?;
    /// assert_eq!(screen.sends(0).count(), 80);
    /// assert_eq!(buffer, [0; 1_600]);
    /// # Ok::<(), caption::Refusal>(())
    /// ```
    pub const fn direct_in(buffer: &'a mut [u8]) -> Self {
        Self(Kind::Direct(buffer))
    }

    /// Driven through this controller, with a buffer of as many bytes as its panel has for what the driver knows of it. That
    /// becomes a copy of the panel.
    ///
    /// ```
    /// use caption::{Controller, Glass, Panel, Screen, Setup};
    ///
    /// const GLASS: Glass = Glass::Small;
    /// let (mut record, mut memory) = (vec![0; GLASS.record_bytes()], vec![0; GLASS.memory_bytes()]);
    /// let (mut registers, mut panel, mut image) = ([0; 8], [0; 1_600], [0; 1_600]);
    /// let controller = Controller::in_buffers(&mut registers, &mut panel)?;
    /// let panels =
    ///     [Panel::driven_in(controller, &mut image)?, Panel::absent(), Panel::absent(), Panel::absent()];
    /// let mut screen = Screen::open_in(&Setup::new(), &mut record, &mut memory, panels)?;
    /// assert_eq!(screen.sends(0).count(), 80);
    /// # Ok::<(), caption::Refusal>(())
    /// ```
    pub fn driven_in(controller: Controller<Borrowed<'a>>, image: &'a mut [u8]) -> Result<Self, Refusal> {
        if image.len() != controller.panel.len() {
            return Err(Refusal::Lent);
        }
        image.copy_from_slice(controller.panel);
        Ok(Self(Kind::Driven(controller, image)))
    }
}

impl<P: Place> Panel<P> {
    /// What it shows.
    pub(crate) fn bytes(&self) -> Option<&[u8]> {
        match &self.0 {
            Kind::Absent => None,
            Kind::Direct(panel) => Some(panel.bytes()),
            Kind::Driven(controller, _) => Some(controller.panel.bytes()),
        }
    }

    pub(crate) fn fits(&self, glass: Glass) -> bool {
        self.bytes().is_none_or(|bytes| bytes.len() == glass.panel_bytes())
    }

    pub(crate) fn controller(&self) -> Option<&Controller<P>> {
        match &self.0 {
            Kind::Driven(controller, _) => Some(controller),
            _ => None,
        }
    }

    pub(crate) fn controller_mut(&mut self) -> Option<&mut Controller<P>> {
        match &mut self.0 {
            Kind::Driven(controller, _) => Some(controller),
            _ => None,
        }
    }

    /// A line of the screen to it. Where there is no panel none is lent, and the core says so.
    pub(crate) fn send(&mut self, record: &mut [u8], memory: &[u8], number: u8) -> Sent {
        match &mut self.0 {
            Kind::Absent => calls::send(record, memory, &mut [], number),
            Kind::Direct(panel) => calls::send(record, memory, panel.bytes_mut(), number),
            Kind::Driven(controller, image) => {
                let (registers, panel) = (controller.registers.bytes_mut(), controller.panel.bytes_mut());
                calls::drive_line(record, memory, registers, panel, image.bytes_mut(), number)
            }
        }
    }

    /// The same one, lent.
    pub(crate) fn lend(&mut self) -> Panel<Borrowed<'_>> {
        Panel(match &mut self.0 {
            Kind::Absent => Kind::Absent,
            Kind::Direct(panel) => Kind::Direct(panel.bytes_mut()),
            Kind::Driven(controller, image) => Kind::Driven(controller.lend(), image.bytes_mut()),
        })
    }
}
