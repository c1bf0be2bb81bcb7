//! What is told to the calls: each value has the number of the C interface.

use caption_sys::numbers::{cursor, draw_mode, edge, fill, paint_mode, print_mode, screen_mode, version};

/// Which codes are emoji.
///
/// ```
/// use caption::{Screen, Setup, Version};
///
/// let screen = Screen::open(&Setup::new().version(Version::V1))?;
/// assert_eq!(screen.version(), Version::V1);
/// # Ok::<(), caption::Refusal>(())
/// ```
#[derive(Debug, Clone, Copy, PartialEq, Eq, Hash, Default)]
#[repr(u8)]
pub enum Version {
    /// FA46 to FD7D, in seven rows.
    V1 = version::V1,
    /// F8A1 to FDD9, in six rows.
    #[default]
    V2 = version::V2,
}

/// What a horizontal line does beyond the screen's edge. Boxes and filled ellipses are made of such lines.
///
/// ```
/// use caption::{DrawMode, Edge, Screen, Setup};
///
/// let mut clamped = Screen::open(&Setup::new())?;
/// clamped.draw_line(0, 200, 9, 200, DrawMode::Or)?;
/// assert!(clamped.check_point(0, 79)?);
///
/// let mut stopped = Screen::open(&Setup::new().edge(Edge::Stop))?;
/// stopped.draw_line(0, 200, 9, 200, DrawMode::Or)?;
/// assert!(!stopped.check_point(0, 79)?);
/// # Ok::<(), caption::Refusal>(())
/// ```
#[derive(Debug, Clone, Copy, PartialEq, Eq, Hash, Default)]
#[repr(u8)]
pub enum Edge {
    /// It is drawn in the last column or row instead.
    #[default]
    Clamp = edge::CLAMP,
    /// Its pixels there are left out.
    Stop = edge::STOP,
}

/// How boxes, circles and ellipses are drawn.
///
/// ```
/// use caption::{DrawMode, Fill, Screen, Setup};
///
/// let mut screen = Screen::open(&Setup::new())?;
/// screen.draw_box(10, 10, 20, 20, Fill::Outline, DrawMode::Or)?;
/// assert!(!screen.check_point(15, 15)?);
/// screen.draw_box(10, 10, 20, 20, Fill::Filled, DrawMode::Or)?;
/// assert!(screen.check_point(15, 15)?);
/// # Ok::<(), caption::Refusal>(())
/// ```
#[derive(Debug, Clone, Copy, PartialEq, Eq, Hash)]
#[repr(u8)]
pub enum Fill {
    /// The outline alone.
    Outline = fill::OUTLINE,
    /// Filled.
    Filled = fill::FILLED,
}

/// What drawing does to a pixel.
///
/// ```
/// use caption::{DrawMode, Screen, Setup};
///
/// let mut screen = Screen::open(&Setup::new())?;
/// for (mode, set) in [(DrawMode::Or, true), (DrawMode::Xor, false), (DrawMode::Xor, true), (DrawMode::Clear, false)] {
///     screen.draw_point(3, 0, mode)?;
///     assert_eq!(screen.check_point(3, 0)?, set);
/// }
/// # Ok::<(), caption::Refusal>(())
/// ```
#[derive(Debug, Clone, Copy, PartialEq, Eq, Hash)]
#[repr(u8)]
pub enum DrawMode {
    /// Clears it.
    Clear = draw_mode::CLEAR,
    /// Sets it.
    Or = draw_mode::OR,
    /// Inverts it.
    Xor = draw_mode::XOR,
    /// Leaves it, but inverts wherever a horizontal line is drawn.
    Unknown = draw_mode::UNKNOWN,
}

/// How a bitmap's bit s and the screen's bit v become one.
///
/// ```
/// use caption::{PaintMode, Screen, Setup};
///
/// let mut screen = Screen::open(&Setup::new())?;
/// screen.load(0x2100, &[0b1010_0000])?;
/// screen.paint_bitmap(0x2100, 0, 0, 4, 1, PaintMode::Not)?;
/// assert_eq!(screen.screen().line(0)[0], 0b0101_0000);
/// # Ok::<(), Box<dyn std::error::Error>>(())
/// ```
#[derive(Debug, Clone, Copy, PartialEq, Eq, Hash)]
#[repr(u8)]
pub enum PaintMode {
    /// s
    Copy = paint_mode::COPY,
    /// s or v
    Or = paint_mode::OR,
    /// not s
    Not = paint_mode::NOT,
    /// s and v
    And = paint_mode::AND,
    /// s xor v
    Xor = paint_mode::XOR,
}

/// What a flush does to the picture.
///
/// ```
/// use caption::{DrawMode, Fonts, Screen, ScreenMode, Setup};
///
/// let mut screen = Screen::open(&Setup::new())?;
/// screen.set_screen_mode(ScreenMode::Graph)?;
/// screen.draw_point(3, 0, DrawMode::Or)?;
/// screen.flush(&Fonts::default())?;
/// assert!(screen.check_point(3, 0)?);
/// # Ok::<(), caption::Refusal>(())
/// ```
#[derive(Debug, Clone, Copy, PartialEq, Eq, Hash)]
#[repr(u8)]
pub enum ScreenMode {
    /// A flush clears the screen first, and the cursor can be shown.
    Text = screen_mode::TEXT,
    /// The picture stays under a flush, and scrolls with the text.
    Graph = screen_mode::GRAPH,
}

/// How text is printed from now on.
///
/// ```
/// use caption::{PrintMode, Screen, Setup};
///
/// let mut screen = Screen::open(&Setup::new())?;
/// screen.set_print_mode(PrintMode::Inverse)?;
/// screen.print(b"!")?;
/// assert!(screen.is_inverse(0, 0));
/// # Ok::<(), caption::Refusal>(())
/// ```
#[derive(Debug, Clone, Copy, PartialEq, Eq, Hash)]
#[repr(u8)]
pub enum PrintMode {
    /// Set pixels on clear ones.
    Normal = print_mode::NORMAL,
    /// Clear pixels on set ones.
    Inverse = print_mode::INVERSE,
    /// As Inverse; asked for while it is Inverse, it is Normal.
    Flash = print_mode::FLASH,
}

/// The cursor that is shown.
///
/// ```
/// use caption::{Cursor, Screen, Setup};
///
/// let mut screen = Screen::open(&Setup::new())?;
/// assert_eq!(screen.cursor(), Cursor::None);
/// screen.blink_cursor()?;
/// assert_eq!(screen.cursor(), Cursor::Half);
/// # Ok::<(), caption::Refusal>(())
/// ```
#[derive(Debug, Clone, Copy, PartialEq, Eq, Hash)]
#[repr(u8)]
pub enum Cursor {
    /// None.
    None = cursor::NONE,
    /// Over one cell.
    Half = cursor::HALF,
    /// Over the two cells of a pair.
    Full = cursor::FULL,
}

/// The values of record bytes. A screen's record has none but the listed ones.
impl Version {
    pub(crate) const fn of(byte: u8) -> Self {
        if byte == version::V1 { Self::V1 } else { Self::V2 }
    }
}

impl Edge {
    pub(crate) const fn of(byte: u8) -> Self {
        if byte == edge::CLAMP { Self::Clamp } else { Self::Stop }
    }
}

impl ScreenMode {
    pub(crate) const fn of(byte: u8) -> Self {
        if byte == screen_mode::TEXT { Self::Text } else { Self::Graph }
    }
}

impl PrintMode {
    pub(crate) const fn of(byte: u8) -> Self {
        match byte {
            print_mode::NORMAL => Self::Normal,
            print_mode::INVERSE => Self::Inverse,
            _ => Self::Flash,
        }
    }
}

impl Cursor {
    pub(crate) const fn of(byte: u8) -> Self {
        match byte {
            cursor::NONE => Self::None,
            cursor::HALF => Self::Half,
            _ => Self::Full,
        }
    }
}
