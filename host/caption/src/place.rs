//! Where the bytes of a screen lie. Nobody outside the crate can name `Bytes` or `Sealed`, so that there are no other places.

use caption_sys::layout;
use core::marker::PhantomData;

/// Where the bytes of a screen, a panel or a controller lie: [`Owned`] or [`Borrowed`].
///
/// ```
/// use caption::{Place, Screen};
///
/// /// For a screen of either kind.
/// fn lines_left<P: Place>(screen: &Screen<P>) -> u32 {
///     (0..4).filter_map(|number| screen.lines_left(number).ok()).sum()
/// }
/// assert_eq!(lines_left(&Screen::open(&caption::Setup::new())?), 320);
/// # Ok::<(), caption::Refusal>(())
/// ```
pub trait Place: Sealed {
    #[doc(hidden)]
    type Record: Bytes;
    #[doc(hidden)]
    type Memory: Bytes;
    #[doc(hidden)]
    type Panel: Bytes;
    #[doc(hidden)]
    type Registers: Bytes;
}

/// In the value itself: a screen is some 80 kB then. It is made on the stack and moved from there, as into a box.
///
/// ```
/// use caption::{Owned, Screen, Setup};
///
/// let screen: Box<Screen<Owned>> = Box::new(Screen::open(&Setup::new())?);
/// # Ok::<(), caption::Refusal>(())
/// ```
#[derive(Debug)]
pub enum Owned {}

/// In buffers of the host, which are lent for as long as the value lives.
///
/// ```
/// use caption::{Borrowed, Glass, Panel, Screen, Setup};
///
/// let glass = Glass::Small;
/// let mut record = vec![0; glass.record_bytes()];
/// let mut memory = vec![0; glass.memory_bytes()];
/// let mut buffer = vec![0; glass.panel_bytes()];
/// let panels = [Panel::direct_in(&mut buffer), Panel::absent(), Panel::absent(), Panel::absent()];
/// let screen: Screen<Borrowed> = Screen::open_in(&Setup::new(), &mut record, &mut memory, panels)?;
/// # Ok::<(), caption::Refusal>(())
/// ```
#[derive(Debug)]
pub struct Borrowed<'a>(PhantomData<&'a mut [u8]>);

impl Place for Owned {
    type Record = [u8; layout::RECORD];
    type Memory = [u8; layout::MEMORY];
    type Panel = [u8; layout::PANEL];
    type Registers = [u8; layout::REGISTERS];
}

impl<'a> Place for Borrowed<'a> {
    type Record = &'a mut [u8];
    type Memory = &'a mut [u8];
    type Panel = &'a mut [u8];
    type Registers = &'a mut [u8];
}

pub trait Sealed {}
impl Sealed for Owned {}
impl Sealed for Borrowed<'_> {}

/// Always the same bytes.
pub trait Bytes: core::fmt::Debug {
    fn bytes(&self) -> &[u8];
    fn bytes_mut(&mut self) -> &mut [u8];
}

impl<const N: usize> Bytes for [u8; N] {
    fn bytes(&self) -> &[u8] {
        self
    }
    fn bytes_mut(&mut self) -> &mut [u8] {
        self
    }
}

impl Bytes for &mut [u8] {
    fn bytes(&self) -> &[u8] {
        self
    }
    fn bytes_mut(&mut self) -> &mut [u8] {
        self
    }
}
