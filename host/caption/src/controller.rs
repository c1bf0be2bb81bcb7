use crate::place::Bytes;
use crate::refusal::done;
use crate::{Borrowed, Glass, Owned, Picture, Place, Refusal, calls};
use caption_sys::layout;
use caption_sys::numbers::{command, register, status};

/// A glass controller: a device of eight registers and a panel. A host writes and reads it by hand, or hands it to a screen
/// as a driven panel ([`Panel::driven`](crate::Panel::driven)), whose sends then go through it.
///
/// ```
/// use caption::{Command, Controller, Register};
///
/// // A line of two bytes, by hand.
/// let mut controller = Controller::new();
/// controller.write(Register::Line, 3)?;
/// controller.write(Register::FirstByte, 18)?;
/// controller.write(Register::ByteCount, 2)?;
/// controller.command(Command::Line)?;
/// controller.write(Register::Data, 0xaa)?;
/// assert!(controller.status()?.busy);
/// controller.write(Register::Data, 0x55)?;
/// assert!(!controller.status()?.busy);
/// assert_eq!(controller.panel().line(3)[18..], [0xaa, 0x55]);
/// # Ok::<(), caption::Refusal>(())
/// ```
#[derive(Debug)]
pub struct Controller<P: Place = Owned> {
    pub(crate) registers: P::Registers,
    pub(crate) panel: P::Panel,
}

impl Controller {
    /// Its registers and its panel are zeros.
    ///
    /// ```
    /// let controller = caption::Controller::new();
    /// assert_eq!(controller.registers(), [0; 8]);
    /// ```
    pub const fn new() -> Self {
        Self { registers: [0; layout::REGISTERS], panel: [0; layout::PANEL] }
    }
}

impl Default for Controller {
    fn default() -> Self {
        Self::new()
    }
}

impl<'a> Controller<Borrowed<'a>> {
    /// In buffers of the host, as they are: 8 bytes of registers, a panel of 1,600.
    ///
    /// ```
    /// use caption::{Controller, Refusal};
    ///
    /// let (mut registers, mut panel) = ([0; 8], [0; 1_600]);
    /// assert!(Controller::in_buffers(&mut registers, &mut panel).is_ok());
    /// assert_eq!(Controller::in_buffers(&mut registers[..7], &mut panel).unwrap_err(), Refusal::Lent);
    /// ```
    pub fn in_buffers(registers: &'a mut [u8], panel: &'a mut [u8]) -> Result<Self, Refusal> {
        if registers.len() == layout::REGISTERS && panel.len() == layout::PANEL {
            Ok(Self { registers, panel })
        } else {
            Err(Refusal::Lent)
        }
    }
}

impl<P: Place> Controller<P> {
    /// A byte to a register. Refused with [`Refusal::Register`] where it is not taken: docs/CALLS.md has the table.
    ///
    /// ```
    /// use caption::{Controller, Refusal, Register};
    ///
    /// let mut controller = Controller::new();
    /// assert_eq!(controller.write(Register::Data, 1), Err(Refusal::Register)); // no line is started
    /// ```
    pub fn write(&mut self, register: Register, value: u8) -> Result<(), Refusal> {
        let (registers, panel) = (self.registers.bytes_mut(), self.panel.bytes_mut());
        done(calls::controller_write(registers, panel, register as u8, value))
    }

    /// The byte of a register. A read of [`Register::Status`] clears the interrupt bit.
    ///
    /// ```
    /// use caption::{Controller, Register};
    ///
    /// let mut controller = Controller::new();
    /// controller.write(Register::Line, 79)?;
    /// assert_eq!(controller.read(Register::Line)?, 79);
    /// # Ok::<(), caption::Refusal>(())
    /// ```
    pub fn read(&mut self, register: Register) -> Result<u8, Refusal> {
        let answer = calls::controller_read(self.registers.bytes_mut(), self.panel.bytes(), register as u8);
        done(answer.code).map(|()| answer.value as u8)
    }

    /// A command to its register.
    ///
    /// ```
    /// use caption::{Command, Controller};
    ///
    /// let (mut registers, mut panel) = ([0; 8], [0xff; 1_600]);
    /// Controller::in_buffers(&mut registers, &mut panel)?.command(Command::Clear)?;
    /// assert_eq!(panel, [0; 1_600]);
    /// # Ok::<(), caption::Refusal>(())
    /// ```
    pub fn command(&mut self, command: Command) -> Result<(), Refusal> {
        self.write(Register::Command, command as u8)
    }

    /// Whether it is busy, and whether the interrupt is pending, which this clears.
    ///
    /// ```
    /// let status = caption::Controller::new().status()?;
    /// assert!(!status.busy && !status.interrupt);
    /// # Ok::<(), caption::Refusal>(())
    /// ```
    pub fn status(&mut self) -> Result<Status, Refusal> {
        let byte = self.read(Register::Status)?;
        Ok(Status { busy: byte & status::BUSY != 0, interrupt: byte & status::INTERRUPT != 0 })
    }

    /// Whether a finished line makes the interrupt pending.
    ///
    /// ```
    /// use caption::{Controller, Register};
    ///
    /// let mut controller = Controller::new();
    /// controller.enable_interrupt(true)?;
    /// assert_eq!(controller.read(Register::Enable)?, 1);
    /// # Ok::<(), caption::Refusal>(())
    /// ```
    pub fn enable_interrupt(&mut self, enabled: bool) -> Result<(), Refusal> {
        self.write(Register::Enable, enabled.into())
    }

    /// Clears all registers, which aborts a line; the panel stays.
    ///
    /// ```
    /// use caption::{Controller, Register};
    ///
    /// let mut controller = Controller::new();
    /// controller.write(Register::ByteCount, 20)?;
    /// controller.reset()?;
    /// assert_eq!(controller.registers(), [0; 8]);
    /// # Ok::<(), caption::Refusal>(())
    /// ```
    pub fn reset(&mut self) -> Result<(), Refusal> {
        self.write(Register::Reset, 0)
    }

    /// Sets all registers to zeros without a call: what a host does about damaged ones, with which every call, a reset too,
    /// is refused with [`Refusal::State`].
    ///
    /// ```
    /// use caption::{Controller, Refusal, Register};
    ///
    /// let (mut registers, mut panel) = ([0xff; 8], [0; 1_600]);
    /// let mut controller = Controller::in_buffers(&mut registers, &mut panel)?;
    /// assert_eq!(controller.reset(), Err(Refusal::State));
    /// controller.repair();
    /// assert_eq!(controller.reset(), Ok(()));
    /// # Ok::<(), Refusal>(())
    /// ```
    pub fn repair(&mut self) {
        self.registers.bytes_mut().fill(0);
    }

    /// The registers as they are; nothing is cleared by a look.
    ///
    /// ```
    /// assert_eq!(caption::Controller::new().registers().len(), 8);
    /// ```
    pub fn registers(&self) -> &[u8] {
        self.registers.bytes()
    }

    /// What its panel shows.
    ///
    /// ```
    /// assert!(!caption::Controller::new().panel().pixel(0, 0));
    /// ```
    pub fn panel(&self) -> Picture<'_> {
        Picture::new(Glass::Small, self.panel.bytes())
    }

    /// The same one, lent.
    pub(crate) fn lend(&mut self) -> Controller<Borrowed<'_>> {
        Controller { registers: self.registers.bytes_mut(), panel: self.panel.bytes_mut() }
    }
}

/// A register of a glass controller.
///
/// ```
/// use caption::Register;
///
/// assert_eq!(Register::Status as u8, 5);
/// ```
#[derive(Debug, Clone, Copy, PartialEq, Eq, Hash)]
#[repr(u8)]
pub enum Register {
    /// The last command.
    Command = register::COMMAND,
    /// The line to be written.
    Line = register::LINE,
    /// The byte of the line that data goes to next.
    FirstByte = register::FIRST_BYTE,
    /// How many data bytes are to come.
    ByteCount = register::BYTE_COUNT,
    /// The last data byte.
    Data = register::DATA,
    /// Busy and interrupt; never written.
    Status = register::STATUS,
    /// Interrupt enable, 0 or 1.
    Enable = register::ENABLE,
    /// A write of any byte clears all registers.
    Reset = register::RESET,
}

/// A command of a glass controller.
///
/// ```
/// use caption::Command;
///
/// assert_eq!(Command::Line as u8, 2);
/// ```
#[derive(Debug, Clone, Copy, PartialEq, Eq, Hash)]
#[repr(u8)]
pub enum Command {
    /// Nothing.
    None = command::NONE,
    /// The panel becomes zeros.
    Clear = command::CLEAR,
    /// Starts a line: as many data bytes follow as byte count says.
    Line = command::LINE,
}

/// What a controller's status says: see [`Controller::status`].
///
/// ```
/// use caption::{Controller, Status};
///
/// assert_eq!(Controller::new().status()?, Status { busy: false, interrupt: false });
/// # Ok::<(), caption::Refusal>(())
/// ```
#[derive(Debug, Clone, Copy, PartialEq, Eq)]
pub struct Status {
    /// A line is started, and data bytes are to come.
    pub busy: bool,
    /// A line was finished while the interrupt was enabled, and status was not read since.
    pub interrupt: bool,
}
