use crate::{Glass, Refusal};

/// The pixels of a screen or of a panel, as they are.
///
/// ```
/// use caption::{DrawMode, Screen, Setup};
///
/// let mut screen = Screen::open(&Setup::new())?;
/// screen.draw_point(3, 0, DrawMode::Or)?;
/// assert!(screen.screen().pixel(3, 0));
/// assert!(screen.screen() != screen.panel(0)?); // it is not sent yet
/// # Ok::<(), caption::Refusal>(())
/// ```
#[derive(Debug, Clone, Copy, PartialEq, Eq)]
pub struct Picture<'a> {
    glass: Glass,
    bytes: &'a [u8],
}

impl<'a> Picture<'a> {
    /// Of bytes that are as many as a panel of this glass has.
    pub(crate) const fn new(glass: Glass, bytes: &'a [u8]) -> Self {
        Self { glass, bytes }
    }

    /// The picture in these bytes, as a host has them of its own panel. They are as many as a panel of this glass has.
    ///
    /// ```
    /// use caption::{Glass, Picture, Refusal};
    ///
    /// let bytes = [0x80; 1_600];
    /// assert!(Picture::of(Glass::Small, &bytes)?.pixel(8, 79));
    /// assert_eq!(Picture::of(Glass::Small, &bytes[1..]), Err(Refusal::Lent));
    /// # Ok::<(), Refusal>(())
    /// ```
    pub const fn of(glass: Glass, bytes: &'a [u8]) -> Result<Self, Refusal> {
        if bytes.len() == glass.panel_bytes() { Ok(Self { glass, bytes }) } else { Err(Refusal::Lent) }
    }

    /// The glass that it is for.
    ///
    /// ```
    /// let screen = caption::Screen::open(&caption::Setup::new())?;
    /// assert_eq!(screen.screen().glass(), caption::Glass::Small);
    /// # Ok::<(), caption::Refusal>(())
    /// ```
    pub const fn glass(self) -> Glass {
        self.glass
    }

    /// All bytes, line by line. Pixel (x, y) is bit `0x80 >> x % 8` of byte `20 * y + x / 8`.
    ///
    /// ```
    /// let screen = caption::Screen::open(&caption::Setup::new())?;
    /// assert_eq!(screen.screen().bytes(), [0; 1_600]);
    /// # Ok::<(), caption::Refusal>(())
    /// ```
    pub const fn bytes(self) -> &'a [u8] {
        self.bytes
    }

    /// The bytes of one line; none where there is no such line.
    ///
    /// ```
    /// let screen = caption::Screen::open(&caption::Setup::new())?;
    /// assert_eq!(screen.screen().line(79).len(), 20);
    /// assert_eq!(screen.screen().line(80), []);
    /// # Ok::<(), caption::Refusal>(())
    /// ```
    pub fn line(self, y: u16) -> &'a [u8] {
        self.bytes.chunks_exact(self.glass.line_bytes()).nth(y.into()).unwrap_or_default()
    }

    /// Whether a pixel is set. None beyond the edge is.
    ///
    /// ```
    /// let screen = caption::Screen::open(&caption::Setup::new())?;
    /// assert!(!screen.screen().pixel(159, 79));
    /// # Ok::<(), caption::Refusal>(())
    /// ```
    pub fn pixel(self, x: u16, y: u16) -> bool {
        let byte = self.line(y).get(usize::from(x / 8));
        byte.is_some_and(|byte| byte & 0x80 >> (x % 8) != 0)
    }

    /// The pixels at which both differ, line by line.
    ///
    /// ```
    /// use caption::{DrawMode, Screen, Setup};
    ///
    /// let mut screen = Screen::open(&Setup::new())?;
    /// screen.draw_line(3, 0, 5, 0, DrawMode::Or)?;
    /// let differing = screen.screen().differing(screen.panel(0)?);
    /// assert!(differing.eq([(3, 0), (4, 0), (5, 0)]));
    /// # Ok::<(), caption::Refusal>(())
    /// ```
    pub const fn differing(self, other: Self) -> Differing<'a> {
        Differing { one: self, other, x: 0, y: 0 }
    }

    /// As a file of PBM (P4): a set pixel is black.
    ///
    /// ```
    /// let screen = caption::Screen::open(&caption::Setup::new())?;
    /// let file: Vec<u8> = screen.screen().pbm().collect();
    /// assert!(file.starts_with(b"P4\n160 80\n"));
    /// assert_eq!(file.len(), 10 + 1_600);
    /// # Ok::<(), caption::Refusal>(())
    /// ```
    pub fn pbm(self) -> Pbm<'a> {
        let head: &[u8] = match self.glass {
            Glass::Small => b"P4\n160 80\n",
        };
        Pbm { bytes: head.iter().chain(self.bytes) }
    }
}

/// The pixels at which two pictures differ: see [`Picture::differing`].
///
/// ```
/// use caption::{DrawMode, Screen, Setup};
///
/// let mut screen = Screen::open(&Setup::new())?;
/// screen.draw_point(159, 79, DrawMode::Or)?;
/// assert_eq!(screen.screen().differing(screen.panel(0)?).next(), Some((159, 79)));
/// # Ok::<(), caption::Refusal>(())
/// ```
#[derive(Debug, Clone)]
pub struct Differing<'a> {
    one: Picture<'a>,
    other: Picture<'a>,
    x: u16,
    y: u16,
}

impl Iterator for Differing<'_> {
    type Item = (u16, u16);

    fn next(&mut self) -> Option<(u16, u16)> {
        let glass = self.one.glass;
        while self.y < glass.height() {
            let (x, y) = (self.x, self.y);
            (self.x, self.y) = if x + 1 < glass.width() { (x + 1, y) } else { (0, y + 1) };
            if self.one.pixel(x, y) != self.other.pixel(x, y) {
                return Some((x, y));
            }
        }
        None
    }
}

/// The bytes of a PBM file: see [`Picture::pbm`].
///
/// ```
/// let screen = caption::Screen::open(&caption::Setup::new())?;
/// assert_eq!(screen.screen().pbm().next(), Some(b'P'));
/// # Ok::<(), caption::Refusal>(())
/// ```
#[derive(Debug, Clone)]
pub struct Pbm<'a> {
    bytes: core::iter::Chain<core::slice::Iter<'a, u8>, core::slice::Iter<'a, u8>>,
}

impl Iterator for Pbm<'_> {
    type Item = u8;

    fn next(&mut self) -> Option<u8> {
        self.bytes.next().copied()
    }

    fn size_hint(&self) -> (usize, Option<usize>) {
        self.bytes.size_hint()
    }
}
