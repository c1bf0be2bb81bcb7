//! The controllers of driven panels: what may be done with them beside driven sends. A line or a clear that a host wrote by
//! hand would be on the panel and owed to nobody, so there is no way to write one here.

use super::Screen;
use crate::{Controller, Place, Refusal, Register};

impl<P: Place> Screen<P> {
    /// The controller of a driven panel, to look at. One that is sent to directly has none: [`Refusal::Lent`].
    ///
    /// ```
    /// use caption::{Controller, Panel, Refusal, Screen, Setup};
    ///
    /// let panels = [Panel::driven(Controller::new()), Panel::direct(), Panel::absent(), Panel::absent()];
    /// let mut screen = Screen::open_with(&Setup::new(), panels)?;
    /// screen.send(0)?;
    /// assert_eq!(screen.controller(0)?.registers(), [2, 0, 20, 0, 0, 0, 0, 0]); // a line of 20 bytes is done
    /// assert_eq!(screen.controller(1).unwrap_err(), Refusal::Lent);
    /// # Ok::<(), Refusal>(())
    /// ```
    pub fn controller(&self, number: u8) -> Result<&Controller<P>, Refusal> {
        let panel = self.panels.get(usize::from(number)).ok_or(Refusal::Panel)?;
        panel.controller().ok_or(Refusal::Lent)
    }

    fn controller_mut(&mut self, number: u8) -> Result<&mut Controller<P>, Refusal> {
        let panel = self.panels.get_mut(usize::from(number)).ok_or(Refusal::Panel)?;
        panel.controller_mut().ok_or(Refusal::Lent)
    }

    /// The byte of a register of a driven panel's controller. A read of [`Register::Status`] clears the interrupt bit.
    ///
    /// ```
    /// use caption::{Controller, Panel, Register, Screen, Setup};
    ///
    /// let panels = [Panel::driven(Controller::new()), Panel::absent(), Panel::absent(), Panel::absent()];
    /// let mut screen = Screen::open_with(&Setup::new(), panels)?;
    /// screen.enable_interrupt(0, true)?;
    /// screen.send(0)?;
    /// assert_eq!(screen.read_register(0, Register::Status)?, 2);
    /// assert_eq!(screen.read_register(0, Register::Status)?, 0);
    /// # Ok::<(), caption::Refusal>(())
    /// ```
    pub fn read_register(&mut self, number: u8, register: Register) -> Result<u8, Refusal> {
        self.controller_mut(number)?.read(register)
    }

    /// Whether each driven line makes the interrupt pending.
    ///
    /// ```
    /// use caption::{Controller, Panel, Screen, Setup};
    ///
    /// let panels = [Panel::driven(Controller::new()), Panel::absent(), Panel::absent(), Panel::absent()];
    /// let mut screen = Screen::open_with(&Setup::new(), panels)?;
    /// screen.enable_interrupt(0, true)?;
    /// # Ok::<(), caption::Refusal>(())
    /// ```
    pub fn enable_interrupt(&mut self, number: u8, enabled: bool) -> Result<(), Refusal> {
        self.controller_mut(number)?.enable_interrupt(enabled)
    }

    /// Clears the controller's registers, which aborts a line that it was handed over with. The panel stays.
    ///
    /// ```
    /// use caption::{Command, Controller, Panel, Refusal, Register, Screen, Setup};
    ///
    /// let mut controller = Controller::new();
    /// controller.write(Register::ByteCount, 1)?;
    /// controller.command(Command::Line)?;
    /// let panels = [Panel::driven(controller), Panel::absent(), Panel::absent(), Panel::absent()];
    /// let mut screen = Screen::open_with(&Setup::new(), panels)?;
    /// assert_eq!(screen.send(0), Err(Refusal::Register)); // it waits for a data byte
    /// screen.reset_controller(0)?;
    /// assert_eq!(screen.sends(0).count(), 80);
    /// # Ok::<(), Refusal>(())
    /// ```
    pub fn reset_controller(&mut self, number: u8) -> Result<(), Refusal> {
        self.controller_mut(number)?.reset()
    }

    /// Sets damaged registers to zeros: see [`Controller::repair`].
    ///
    /// ```
    /// use caption::{Controller, Glass, Panel, Refusal, Screen, Setup};
    ///
    /// const GLASS: Glass = Glass::Small;
    /// let (mut record, mut memory) = (vec![0; GLASS.record_bytes()], vec![0; GLASS.memory_bytes()]);
    /// let (mut registers, mut panel, mut image) = ([0xff; 8], [0; 1_600], [0; 1_600]);
    /// let controller = Controller::in_buffers(&mut registers, &mut panel)?;
    /// let driven = Panel::driven_in(controller, &mut image)?;
    /// let panels = [driven, Panel::absent(), Panel::absent(), Panel::absent()];
    /// let mut screen = Screen::open_in(&Setup::new(), &mut record, &mut memory, panels)?;
    /// assert_eq!(screen.send(0), Err(Refusal::State));
    /// screen.repair_controller(0)?;
    /// assert_eq!(screen.sends(0).count(), 80);
    /// # Ok::<(), Refusal>(())
    /// ```
    pub fn repair_controller(&mut self, number: u8) -> Result<(), Refusal> {
        self.controller_mut(number)?.repair();
        Ok(())
    }
}
