//! What several of the test files use.
#![allow(dead_code)] // no file uses all of it

use caption::{Borrowed, Controller, Edge, Fonts, Keys, Panel, Picture, Place, Rect, Refusal, Screen, Setup, Version};
use caption_sys::layout;

/// A stand-in for the 128 characters of ascii16: no two are equal, and none is symmetric.
pub fn ascii16() -> Vec<u8> {
    (0..2_048).map(|i| (i * 37 + i / 16) as u8).collect()
}

/// Fonts with nothing but these characters.
pub fn fonts(ascii16: &[u8]) -> Fonts<'_> {
    Fonts { ascii16, ..Fonts::default() }
}

pub fn rect(left: u16, top: u16, right: u16, bottom: u16) -> Rect {
    Rect { left, top, right, bottom }
}

/// The set pixels, line by line.
pub fn set_pixels(picture: Picture<'_>) -> Vec<(u16, u16)> {
    let all = (0..80).flat_map(|y| (0..160).map(move |x| (x, y)));
    all.filter(|&(x, y)| picture.pixel(x, y)).collect()
}

/// The numbers of the panels.
pub const NUMBERS: [u8; 4] = [0, 1, 2, 3];

#[derive(Debug, Clone, Copy, PartialEq, Eq)]
pub enum Kind {
    Direct,
    Driven,
    Absent,
}

/// Panels that own their bytes.
pub fn panels(kinds: [Kind; 4]) -> [Panel; 4] {
    kinds.map(|kind| match kind {
        Kind::Direct => Panel::direct(),
        Kind::Driven => Panel::driven(Controller::new()),
        Kind::Absent => Panel::absent(),
    })
}

/// What a host lends: at first registers of zeros, and other bytes that no open leaves.
#[derive(Clone, PartialEq, Eq)]
pub struct Buffers {
    pub record: Vec<u8>,
    pub memory: Vec<u8>,
    pub panels: [Vec<u8>; 4],
    pub registers: [Vec<u8>; 4],
    pub images: [Vec<u8>; 4],
}

impl Buffers {
    pub fn new() -> Self {
        let panels = [0xa5, 0x5a, 0x3c, 0xc3].map(|byte| vec![byte; 1_600]);
        let registers = NUMBERS.map(|_| vec![0; 8]);
        Self {
            record: vec![0x99; layout::RECORD],
            memory: vec![0x66; layout::MEMORY],
            images: panels.clone(),
            panels,
            registers,
        }
    }

    /// A screen in these buffers.
    pub fn open(&mut self, setup: &Setup, kinds: [Kind; 4]) -> Result<Screen<Borrowed<'_>>, Refusal> {
        let mut lent = self.panels.iter_mut().zip(&mut self.registers).zip(&mut self.images);
        let mut panels = [const { Panel::absent() }; 4];
        for (place, kind) in panels.iter_mut().zip(kinds) {
            let ((panel, registers), image) = lent.next().expect("four of each");
            *place = match kind {
                Kind::Direct => Panel::direct_in(panel),
                Kind::Driven => Panel::driven_in(Controller::in_buffers(registers, panel)?, image)?,
                Kind::Absent => Panel::absent(),
            };
        }
        Screen::open_in(setup, &mut self.record, &mut self.memory, panels)
    }
}

/// Other bases, version, edge and keys than `Setup::new` has.
pub fn other_setup() -> Setup {
    let keys = [1, 34, 67, 100, 133, 166, 199, 232].into_iter().fold(Keys::new(), Keys::with);
    Setup::new().bases(0x3000, 0x1234).version(Version::V1).edge(Edge::Stop).keys(keys)
}

/// All bytes of a screen that its host can look at.
#[derive(Clone, PartialEq, Eq)]
pub struct Seen {
    pub record: Vec<u8>,
    pub memory: Vec<u8>,
    pub panels: [Option<Vec<u8>>; 4],
    pub registers: [Option<Vec<u8>>; 4],
}

pub fn seen<P: Place>(screen: &Screen<P>) -> Seen {
    Seen {
        record: screen.record().to_vec(),
        memory: screen.memory().to_vec(),
        panels: NUMBERS.map(|number| screen.panel(number).ok().map(|panel| panel.bytes().to_vec())),
        registers: NUMBERS.map(|number| screen.controller(number).ok().map(|it| it.registers().to_vec())),
    }
}

/// The first pixel at which this panel differs from the screen, while it is neither in hand nor owed in its row.
pub fn unaccounted<P: Place>(screen: &Screen<P>, number: u8) -> Option<(u16, u16)> {
    let (shown, panel) = (screen.screen(), screen.panel(number).unwrap());
    let (in_hand, owed) = (screen.in_hand(number).unwrap(), screen.owed(number).unwrap());
    let rects = |y: u16| [in_hand, owed[usize::from(y) / 16]];
    let whole = |y| rects(y).iter().any(|rect| rect.contains(0, y) && rect.contains(159, y));
    let lines = (0..80).filter(|&y| shown.line(y) != panel.line(y) && !whole(y));
    let mut pixels = lines.flat_map(|y| (0..160).map(move |x| (x, y)));
    pixels.find(|&(x, y)| {
        let accounted = rects(y).iter().any(|rect| rect.contains(x, y));
        !accounted && shown.pixel(x, y) != panel.pixel(x, y)
    })
}
