use caption_sys::layout;
use caption_sys::numbers::code;
use core::error::Error;
use core::fmt;

/// Why a call was refused: the first of its conditions, in the order of their tests, that did not hold. With a refusal no
/// byte has changed.
///
/// ```
/// use caption::{Refusal, Screen, Setup};
///
/// let mut screen = Screen::open(&Setup::new())?;
/// let refusal = screen.set_row(5).unwrap_err();
/// assert_eq!(refusal, Refusal::Value);
/// assert_eq!(refusal.number(), 4);
/// println!("{refusal}");
/// # Ok::<(), Refusal>(())
/// ```
#[derive(Debug, Clone, Copy, PartialEq, Eq, Hash)]
#[non_exhaustive]
pub enum Refusal {
    /// 1: a buffer is missing, or has another length than it must have.
    Lent,
    /// 2: a field of the record or a register is out of its range. A [`Screen`](crate::Screen) never has such a record.
    State,
    /// 3: the bases leave no room for screen and text, or these share a byte.
    Window,
    /// 4: a row, a column, a mode or a flag that is not listed.
    Value,
    /// 5: a bitmap's source runs past the end of memory.
    Source,
    /// 6: a radius above 127.
    Radius,
    /// 7: a flush would paint a byte past the end of its font.
    Glyph,
    /// 9: there is no panel of this number.
    Panel,
    /// 10: a write that the controller does not take now, or a driven send while it is busy.
    Register,
    /// Another number: the library is newer than this crate.
    Unlisted(u32),
}

impl Refusal {
    /// The number that the core answers.
    ///
    /// ```
    /// assert_eq!(caption::Refusal::Register.number(), 10);
    /// ```
    pub const fn number(self) -> u32 {
        match self {
            Self::Lent => code::LENT,
            Self::State => code::STATE,
            Self::Window => code::WINDOW,
            Self::Value => code::VALUE,
            Self::Source => code::SOURCE,
            Self::Radius => code::RADIUS,
            Self::Glyph => code::GLYPH,
            Self::Panel => code::PANEL,
            Self::Register => code::REGISTER,
            Self::Unlisted(number) => number,
        }
    }

    /// The refusal of this number; none for 0, with which a call is done.
    ///
    /// ```
    /// use caption::Refusal;
    ///
    /// assert_eq!(Refusal::from_number(0), None);
    /// assert_eq!(Refusal::from_number(6), Some(Refusal::Radius));
    /// ```
    pub const fn from_number(number: u32) -> Option<Self> {
        Some(match number {
            code::DONE => return None,
            code::LENT => Self::Lent,
            code::STATE => Self::State,
            code::WINDOW => Self::Window,
            code::VALUE => Self::Value,
            code::SOURCE => Self::Source,
            code::RADIUS => Self::Radius,
            code::GLYPH => Self::Glyph,
            code::PANEL => Self::Panel,
            code::REGISTER => Self::Register,
            other => Self::Unlisted(other),
        })
    }
}

impl fmt::Display for Refusal {
    fn fmt(&self, f: &mut fmt::Formatter<'_>) -> fmt::Result {
        f.write_str(match self {
            Self::Lent => return write_lengths(f),
            Self::State => "a field of the record or a register is out of its range",
            Self::Window => {
                "the graphics base is above 63,935, the text base above 65,435, or the 1,600 and the 100 bytes from there \
                 share a byte"
            }
            Self::Value => "a row is above 4, a column above 19, or a mode, version, fill or edge flag is not listed",
            Self::Source => "the bitmap's source runs past the end of memory",
            Self::Radius => "a radius is above 127",
            Self::Glyph => "the flush would paint a byte past the end of its font",
            Self::Panel => "the panel's number is above 3",
            Self::Register => {
                "the register is above 7, the controller does not take this write now, or it is busy and can't be driven"
            }
            Self::Unlisted(number) => return write!(f, "refused with number {number}, which is not listed"),
        })
    }
}

/// LENT's condition, with the lengths that there must be.
fn write_lengths(f: &mut fmt::Formatter<'_>) -> fmt::Result {
    let [record, memory, panel, registers, entry] =
        [layout::RECORD, layout::MEMORY, layout::PANEL, layout::REGISTERS, layout::EXTRA_ENTRY];
    write!(
        f,
        "a buffer is missing or has another length than it must have: record {record} bytes, memory {memory}, panel and \
         image {panel}, registers {registers}, the extra list a multiple of {entry}"
    )
}

impl Error for Refusal {}

/// What a code says.
#[inline]
pub(crate) fn done(code: u32) -> Result<(), Refusal> {
    Refusal::from_number(code).map_or(Ok(()), Err)
}
