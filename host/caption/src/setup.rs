use crate::{Caller, Edge, Glass, Version};

/// What a screen is opened with.
///
/// ```
/// use caption::{Edge, Keys, Screen, Setup};
///
/// let setup = Setup::new().bases(0x1000, 0x2000).edge(Edge::Stop).keys(Keys::new().with(0xc0));
/// let screen = Screen::open(&setup)?;
/// assert_eq!(screen.graphics_base(), 0x1000);
/// # Ok::<(), caption::Refusal>(())
/// ```
#[derive(Debug, Clone, Copy, PartialEq, Eq)]
pub struct Setup {
    pub(crate) glass: Glass,
    pub(crate) caller: Caller,
    pub(crate) graphics_base: u16,
    pub(crate) text_base: u16,
    pub(crate) version: Version,
    pub(crate) keys: Keys,
    pub(crate) edge: Edge,
}

impl Default for Setup {
    fn default() -> Self {
        Self::new()
    }
}

impl Setup {
    /// The small glass, by caller 0; graphics base 4,096, text base 8,192, V2, no key addresses, clamped lines.
    ///
    /// ```
    /// let screen = caption::Screen::open(&caption::Setup::new())?;
    /// assert_eq!((screen.graphics_base(), screen.text_base()), (4_096, 8_192));
    /// # Ok::<(), caption::Refusal>(())
    /// ```
    pub const fn new() -> Self {
        Self {
            glass: Glass::Small,
            caller: Caller::Zero,
            graphics_base: 4_096,
            text_base: 8_192,
            version: Version::V2,
            keys: Keys::new(),
            edge: Edge::Clamp,
        }
    }

    /// For this glass.
    ///
    /// ```
    /// use caption::{Glass, Screen, Setup};
    ///
    /// let screen = Screen::open(&Setup::new().glass(Glass::Small))?;
    /// assert_eq!(screen.glass(), Glass::Small);
    /// # Ok::<(), caption::Refusal>(())
    /// ```
    pub const fn glass(self, glass: Glass) -> Self {
        Self { glass, ..self }
    }

    /// Opened by this caller, who makes the calls of the screen that is opened.
    ///
    /// ```
    /// use caption::{Caller, Screen, Setup};
    ///
    /// let screen = Screen::open(&Setup::new().caller(Caller::Zero))?;
    /// assert_eq!(screen.caller(), Caller::Zero);
    /// # Ok::<(), caption::Refusal>(())
    /// ```
    pub const fn caller(self, caller: Caller) -> Self {
        Self { caller, ..self }
    }

    /// Where the screen's 1,600 bytes and the text's 100 begin in memory.
    ///
    /// ```
    /// use caption::{Refusal, Screen, Setup};
    ///
    /// assert!(Screen::open(&Setup::new().bases(0, 1_600)).is_ok());
    /// // They would share a byte.
    /// assert_eq!(Screen::open(&Setup::new().bases(0, 1_599)).unwrap_err(), Refusal::Window);
    /// ```
    pub const fn bases(self, graphics_base: u16, text_base: u16) -> Self {
        Self { graphics_base, text_base, ..self }
    }

    /// Which codes are emoji.
    ///
    /// ```
    /// use caption::{Screen, Setup, Version};
    ///
    /// assert_eq!(Screen::open(&Setup::new().version(Version::V1))?.version(), Version::V1);
    /// # Ok::<(), caption::Refusal>(())
    /// ```
    pub const fn version(self, version: Version) -> Self {
        Self { version, ..self }
    }

    /// The key addresses: memory has 0xff there, and pokes leave it.
    ///
    /// ```
    /// use caption::{Keys, Screen, Setup};
    ///
    /// let mut screen = Screen::open(&Setup::new().keys(Keys::new().with(7)))?;
    /// screen.write_byte(7, 1)?;
    /// assert_eq!(screen.memory()[7], 0xff);
    /// # Ok::<(), caption::Refusal>(())
    /// ```
    pub const fn keys(self, keys: Keys) -> Self {
        Self { keys, ..self }
    }

    /// What horizontal lines do beyond the screen's edge.
    ///
    /// ```
    /// use caption::{Edge, Screen, Setup};
    ///
    /// assert_eq!(Screen::open(&Setup::new().edge(Edge::Stop))?.edge(), Edge::Stop);
    /// # Ok::<(), caption::Refusal>(())
    /// ```
    pub const fn edge(self, edge: Edge) -> Self {
        Self { edge, ..self }
    }
}

/// A set of key addresses, 0 to 255.
///
/// ```
/// use caption::Keys;
///
/// let keys = Keys::new().with(0xc0).with(0xc7);
/// assert!(keys.contains(0xc7) && !keys.contains(0xc1));
/// ```
#[derive(Debug, Clone, Copy, PartialEq, Eq, Default)]
pub struct Keys {
    pub(crate) words: [u32; 8],
}

impl Keys {
    /// None.
    ///
    /// ```
    /// assert!((0..=255).all(|address| !caption::Keys::new().contains(address)));
    /// ```
    pub const fn new() -> Self {
        Self { words: [0; 8] }
    }

    /// And this one.
    ///
    /// ```
    /// assert!(caption::Keys::new().with(255).contains(255));
    /// ```
    pub const fn with(mut self, address: u8) -> Self {
        self.words[address as usize / 32] |= 1 << (address % 32);
        self
    }

    /// Whether this is one.
    ///
    /// ```
    /// assert!(!caption::Keys::new().with(32).contains(33));
    /// ```
    pub const fn contains(self, address: u8) -> bool {
        self.words[address as usize / 32] >> (address % 32) & 1 == 1
    }
}
