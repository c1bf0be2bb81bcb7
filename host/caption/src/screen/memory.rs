//! Bytes of memory.

use super::Screen;
use crate::place::Bytes;
use crate::refusal::done;
use crate::{Place, Refusal, calls};
use caption_sys::layout;
use core::error::Error;
use core::fmt;

impl<P: Place> Screen<P> {
    /// A byte of memory. Those from 0xe000 on and at key addresses are left as they are. On the screen its eight pixels are
    /// marked.
    ///
    /// ```
    /// use caption::{Screen, Setup};
    ///
    /// let mut screen = Screen::open(&Setup::new())?;
    /// screen.write_byte(screen.graphics_base(), 0xf0)?;
    /// assert!(screen.check_point(3, 0)? && !screen.check_point(4, 0)?);
    /// # Ok::<(), caption::Refusal>(())
    /// ```
    pub fn write_byte(&mut self, address: u16, byte: u8) -> Result<(), Refusal> {
        let (record, memory) = self.lend();
        done(calls::write_byte(record, memory, address, byte))
    }

    /// Bytes into memory from the address on, as a bitmap's source, one [`write_byte`](Self::write_byte) each. All of them,
    /// or none where one would be left as it is.
    ///
    /// ```
    /// use caption::{LoadError, Screen, Setup};
    ///
    /// let mut screen = Screen::open(&Setup::new())?;
    /// screen.load(0x2100, &[1, 2, 3])?;
    /// assert_eq!(screen.memory()[0x2100..0x2103], [1, 2, 3]);
    /// assert_eq!(screen.load(0xdfff, &[1, 2]), Err(LoadError::Fixed { address: 0xe000 }));
    /// assert_eq!(screen.memory()[0xdfff], 0);
    /// # Ok::<(), LoadError>(())
    /// ```
    pub fn load(&mut self, address: u16, bytes: &[u8]) -> Result<(), LoadError> {
        let addresses = usize::from(address)..usize::from(address) + bytes.len();
        if let Some(address) = addresses.clone().find(|address| self.is_fixed(*address)) {
            return Err(LoadError::Fixed { address });
        }
        for (address, byte) in addresses.zip(bytes) {
            self.write_byte(address as u16, *byte)?; // below 0xe000: `as` keeps it
        }
        Ok(())
    }

    /// Whether a poke leaves memory as it is there, or there is no such address.
    fn is_fixed(&self, address: usize) -> bool {
        let key = address < 256 && {
            let word = layout::double_word(self.record.bytes(), layout::KEYS + address / 32 * 4);
            word >> (address % 32) & 1 == 1
        };
        address >= layout::FIXED_MEMORY || key
    }
}

/// Why bytes were not loaded. Then none of them was.
///
/// ```
/// use caption::{Keys, LoadError, Screen, Setup};
///
/// let mut screen = Screen::open(&Setup::new().keys(Keys::new().with(9)))?;
/// assert_eq!(screen.load(8, &[1, 1]), Err(LoadError::Fixed { address: 9 }));
/// # Ok::<(), caption::Refusal>(())
/// ```
#[derive(Debug, Clone, Copy, PartialEq, Eq)]
pub enum LoadError {
    /// Memory has fixed bytes from 0xe000 on and at key addresses, and ends after 0xffff.
    Fixed {
        /// The first such address.
        address: usize,
    },
    /// The core refused the first byte.
    Refused(Refusal),
}

impl From<Refusal> for LoadError {
    fn from(refusal: Refusal) -> Self {
        Self::Refused(refusal)
    }
}

impl fmt::Display for LoadError {
    fn fmt(&self, f: &mut fmt::Formatter<'_>) -> fmt::Result {
        match self {
            Self::Fixed { address } => {
                write!(f, "address {address:#x} can't be written: it is a key address, or from 0xe000 on")
            }
            Self::Refused(refusal) => refusal.fmt(f),
        }
    }
}

impl Error for LoadError {
    fn source(&self) -> Option<&(dyn Error + 'static)> {
        match self {
            Self::Fixed { .. } => None,
            Self::Refused(refusal) => Some(refusal),
        }
    }
}
