use crate::layout::{MEMORY, PANEL, RECORD};
use crate::register::REGISTERS;

/// One exported call of the glass controller, or of its line driver, with the numbers that it is told. They
/// are in no list of other calls.
#[derive(Debug, Clone, Copy, PartialEq, Eq)]
pub enum DeviceCall {
    Write { register: u8, value: u8 },
    Read { register: u8 },
    Drive { number: u8 },
}

impl DeviceCall {
    /// The names of the calls, in the order of `number`.
    pub const NAMES: [&str; 3] = ["controller_write", "controller_read", "drive_line"];

    pub fn number(&self) -> usize {
        match self {
            Self::Write { .. } => 0,
            Self::Read { .. } => 1,
            Self::Drive { .. } => 2,
        }
    }
}

/// What such a call is lent. Only the line driver takes record, memory and image.
pub struct DeviceLent<'a> {
    pub record: &'a mut [u8],
    pub memory: &'a mut [u8],
    pub registers: &'a mut [u8],
    pub panel: &'a mut [u8],
    pub image: &'a mut [u8],
}

/// A host's own bytes for one driven panel.
#[derive(Debug, Clone, PartialEq, Eq)]
pub struct DeviceBuffers {
    pub record: Vec<u8>,
    pub memory: Vec<u8>,
    pub registers: Vec<u8>,
    pub panel: Vec<u8>,
    pub image: Vec<u8>,
}

impl DeviceBuffers {
    pub fn zero() -> Self {
        Self {
            record: vec![0; RECORD],
            memory: vec![0; MEMORY],
            registers: vec![0; REGISTERS],
            panel: vec![0; PANEL],
            image: vec![0; PANEL],
        }
    }

    #[inline]
    pub fn lend(&mut self) -> DeviceLent<'_> {
        DeviceLent {
            record: &mut self.record,
            memory: &mut self.memory,
            registers: &mut self.registers,
            panel: &mut self.panel,
            image: &mut self.image,
        }
    }
}
