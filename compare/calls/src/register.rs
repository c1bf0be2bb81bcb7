//! The registers of the glass controller by their places among the bytes that are lent, and what they hold: the
//! numbers of caption-sys.

pub use caption_sys::layout::REGISTERS;

use caption_sys::numbers::{command, register, status};

pub const COMMAND: usize = register::COMMAND as usize;
pub const LINE_NUMBER: usize = register::LINE as usize;
pub const FIRST_BYTE: usize = register::FIRST_BYTE as usize;
pub const BYTE_COUNT: usize = register::BYTE_COUNT as usize;
pub const DATA: usize = register::DATA as usize;
pub const STATUS: usize = register::STATUS as usize;
pub const ENABLE: usize = register::ENABLE as usize;
pub const RESET: usize = register::RESET as usize;

/// The commands.
pub const NOTHING: u8 = command::NONE;
pub const CLEAR: u8 = command::CLEAR;
pub const START: u8 = command::LINE;

/// The bits of status.
pub const BUSY: u8 = status::BUSY;
pub const INTERRUPT: u8 = status::INTERRUPT;
