//! The record taken apart and put together, and the tests STATE and WINDOW.

use crate::canvas::{Canvas, Mark};
use crate::modes::{self, Cursor, Edge, PrintMode, ScreenMode, Version};
use crate::pending::Pending;
use crate::rect::{Rect, WHOLE_SCREEN, join};
use calls::layout::*;

#[derive(Debug, Clone, PartialEq, Eq)]
pub struct Record {
    pub graphics_base: usize,
    pub text_base: usize,
    pub row: usize,
    pub column: usize,
    pub screen_mode: ScreenMode,
    pub print_mode: PrintMode,
    pub cursor: Cursor,
    pub version: Version,
    pub dirty: Option<Rect>,
    pub panels: [Pending; PANELS],
    pub keys: [u32; 8],
    pub flags: [bool; CELLS],
    pub edge: Edge,
}

/// Where dirty lies.
const DIRTY_LIMITS: Rect = Rect { left: 0, top: 0, right: 256, bottom: 256 };

/// The bases fit into memory and the two windows share no byte.
pub fn windows_fit(graphics_base: usize, text_base: usize) -> bool {
    graphics_base <= 63_935
        && text_base <= 65_435
        && (graphics_base + SCREEN <= text_base || text_base + CELLS <= graphics_base)
}

impl Record {
    /// What `open` and `reset` share: everything as at the start, the whole screen owed to every panel.
    pub fn fresh(
        graphics_base: usize,
        text_base: usize,
        version: Version,
        keys: [u32; 8],
        edge: Edge,
    ) -> Self {
        Self {
            graphics_base,
            text_base,
            row: 0,
            column: 0,
            screen_mode: ScreenMode::Text,
            print_mode: PrintMode::Normal,
            cursor: Cursor::None,
            version,
            dirty: None,
            panels: [Pending::fresh(); PANELS],
            keys,
            flags: [false; CELLS],
            edge,
        }
    }

    /// The record of 359 bytes, if STATE lets it pass.
    pub fn read(bytes: &[u8]) -> Option<Self> {
        let graphics_base = word(bytes, GRAPHICS_BASE) as usize;
        let text_base = word(bytes, TEXT_BASE) as usize;
        let row = bytes[ROW] as usize;
        let column = bytes[COLUMN] as usize;
        if !windows_fit(graphics_base, text_base) || row >= ROWS || column >= COLUMNS {
            return None;
        }
        Some(Self {
            graphics_base,
            text_base,
            row,
            column,
            screen_mode: modes::screen_mode(bytes[SCREEN_MODE])?,
            print_mode: modes::print_mode(bytes[PRINT_MODE])?,
            cursor: modes::cursor(bytes[CURSOR])?,
            version: modes::version(bytes[VERSION])?,
            dirty: read_rect(bytes, DIRTY, &DIRTY_LIMITS)?,
            panels: Pending::read_all(bytes)?,
            keys: std::array::from_fn(|k| double_word(bytes, KEYS + 4 * k)),
            flags: read_flags(&bytes[FLAGS..FLAGS_END])?,
            edge: modes::edge(bytes[EDGE])?,
        })
    }

    pub fn write(&self, bytes: &mut [u8]) {
        write_word(bytes, GRAPHICS_BASE, self.graphics_base);
        write_word(bytes, TEXT_BASE, self.text_base);
        bytes[ROW] = self.row as u8;
        bytes[COLUMN] = self.column as u8;
        bytes[SCREEN_MODE] = self.screen_mode as u8;
        bytes[PRINT_MODE] = self.print_mode as u8;
        bytes[CURSOR] = self.cursor as u8;
        bytes[VERSION] = self.version as u8;
        write_rect(bytes, DIRTY, self.dirty);
        for (panel, pending) in self.panels.iter().enumerate() {
            pending.write(bytes, panel);
        }
        for (k, key) in self.keys.iter().enumerate() {
            write_u32(bytes, KEYS + 4 * k, *key);
        }
        for (k, flag) in self.flags.iter().enumerate() {
            bytes[FLAGS + k] = *flag as u8;
        }
        bytes[EDGE] = self.edge as u8;
    }

    pub fn screen<'a>(&self, memory: &'a mut [u8]) -> &'a mut [u8] {
        &mut memory[self.graphics_base..self.graphics_base + SCREEN]
    }

    pub fn text<'a>(&self, memory: &'a mut [u8]) -> &'a mut [u8] {
        &mut memory[self.text_base..self.text_base + CELLS]
    }

    /// Whether the address 0-255 is a key address.
    pub fn is_key(&self, address: usize) -> bool {
        address < 256 && self.keys[address / 32] >> (address % 32) & 1 == 1
    }

    /// Draw on the screen, then mark what the drawing says.
    pub fn draw(&mut self, memory: &mut [u8], drawing: impl FnOnce(&mut Canvas) -> Option<Mark>) {
        let mut canvas = Canvas::new(self.screen(memory), self.edge);
        let mark = drawing(&mut canvas);
        let owes = canvas.owes(mark);
        self.dirty = join(self.dirty, mark.map(|mark| mark.rect));
        if let Some(rect) = owes {
            self.owe(rect);
        }
    }

    /// Every mark goes to all panels.
    fn owe(&mut self, rect: Rect) {
        for pending in &mut self.panels {
            pending.owe(rect);
        }
    }

    pub fn mark_whole_screen(&mut self) {
        self.dirty = join(self.dirty, Some(WHOLE_SCREEN));
        self.owe_whole_screen();
    }

    pub fn owe_whole_screen(&mut self) {
        self.owe(WHOLE_SCREEN);
    }
}

/// The outer `None`: the bytes are no rectangle within these limits.
pub fn read_rect(bytes: &[u8], place: usize, limits: &Rect) -> Option<Option<Rect>> {
    let [left, top, right, bottom] = four(bytes, place).map(|side| side as usize);
    let rect = Rect { left, top, right, bottom };
    if [left, top, right, bottom] == [0; 4] {
        Some(None)
    } else if left < right && top < bottom && limits.contains(&rect) {
        Some(Some(rect))
    } else {
        None
    }
}

fn read_flags(bytes: &[u8]) -> Option<[bool; CELLS]> {
    let mut flags = [false; CELLS];
    for (flag, byte) in flags.iter_mut().zip(bytes) {
        *flag = modes::fill_flag(*byte).ok()?;
    }
    Some(flags)
}

fn write_word(bytes: &mut [u8], place: usize, value: usize) {
    bytes[place..place + 2].copy_from_slice(&(value as u16).to_le_bytes());
}

pub fn write_u32(bytes: &mut [u8], place: usize, value: u32) {
    bytes[place..place + 4].copy_from_slice(&value.to_le_bytes());
}

pub fn write_rect(bytes: &mut [u8], place: usize, rect: Option<Rect>) {
    let sides = rect.map_or([0; 4], |r| [r.left, r.top, r.right, r.bottom]);
    for (k, side) in sides.into_iter().enumerate() {
        write_word(bytes, place + 2 * k, side);
    }
}
