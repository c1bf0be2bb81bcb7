//! The build adds this as a child module of the unchanged `device/default.rs`, so that it can
//! read and set the private fields.

use super::*;
use crate::machine::EmojiVersion;
use calls::layout::{self, COLUMN, CURSOR, DIRTY, FLAGS, FLAGS_END, GRAPHICS_BASE, KEYS};
use calls::layout::{PRINT_MODE, RECORD, ROW, SCREEN_MODE, TEXT_BASE, VERSION};

impl DefaultDevice {
    /// `new` with these bases, this version and these key addresses.
    pub(crate) fn opened(graphics_base: u16, text_base: u16, version: u8, keys: &[u32; 8]) -> Self {
        let props = MachineProps {
            emoji_version: emoji_version(version),
            graphics_base_addr: graphics_base,
            text_buffer_base_addr: text_base,
            key_mapping_addrs: key_addresses(keys),
            ..Default::default()
        };
        Self::new(props, "")
    }

    pub(crate) fn memory(&self) -> &[u8] {
        &self.memory
    }

    pub(crate) fn memory_mut(&mut self) -> &mut [u8] {
        &mut self.memory
    }

    pub(crate) fn graphics_base(&self) -> usize {
        self.props.graphics_base_addr as usize
    }

    pub(crate) fn text_base(&self) -> usize {
        self.props.text_buffer_base_addr as usize
    }

    pub(crate) fn set_extra_symbols(&mut self, entries: impl Iterator<Item = (u16, usize)>, font: &[u8]) {
        self.props.extra_symbols = intmap::IntMap::new();
        for (code, offset) in entries {
            self.props.extra_symbols.insert(code as u64, offset);
        }
        self.props.extra_symbol_data.clear();
        self.props.extra_symbol_data.extend_from_slice(font);
    }

    pub(crate) fn set_dirty(&mut self, [left, top, right, bottom]: [u16; 4]) {
        self.graphics_dirty = (left < right).then_some(Rect {
            left: left as usize,
            top: top as usize,
            right: right as usize,
            bottom: bottom as usize,
        });
    }

    #[inline]
    pub(crate) fn set_place(&mut self, row: u8, column: u8) {
        self.row = row;
        self.column = column;
    }

    /// The fields as a record; the panels' parts and the edge flag, which the reference lacks, are zero.
    pub(crate) fn record(&self) -> [u8; RECORD] {
        let mut record = [0; RECORD];
        put_word(&mut record, GRAPHICS_BASE, self.props.graphics_base_addr);
        put_word(&mut record, TEXT_BASE, self.props.text_buffer_base_addr);
        record[ROW] = self.row;
        record[COLUMN] = self.column;
        record[SCREEN_MODE] = (self.screen_mode == ScreenMode::Graph) as u8;
        record[PRINT_MODE] = match self.print_mode {
            PrintMode::Normal => 0,
            PrintMode::Inverse => 1,
            PrintMode::Flash => 2,
        };
        record[CURSOR] = match self.cursor {
            CursorState::None => 0,
            CursorState::HalfWidth => 1,
            CursorState::FullWidth => 2,
        };
        record[VERSION] = (self.props.emoji_version == EmojiVersion::V2) as u8;
        if let Some(dirty) = &self.graphics_dirty {
            for (k, side) in [dirty.left, dirty.top, dirty.right, dirty.bottom].into_iter().enumerate() {
                put_word(&mut record, DIRTY + 2 * k, side as u16);
            }
        }
        for (k, word) in self.key_mapping_addr_set.iter().enumerate() {
            record[KEYS + 4 * k..KEYS + 4 * k + 4].copy_from_slice(&word.to_le_bytes());
        }
        for (byte, flag) in record[FLAGS..FLAGS_END].iter_mut().zip(&self.inverse_text) {
            *byte = *flag as u8;
        }
        record
    }

    /// Take over the fields of a valid record, and memory.
    pub(crate) fn load(&mut self, record: &[u8], memory: &[u8]) {
        self.memory.copy_from_slice(memory);
        self.props.graphics_base_addr = layout::word(record, GRAPHICS_BASE);
        self.props.text_buffer_base_addr = layout::word(record, TEXT_BASE);
        self.props.emoji_version = emoji_version(record[VERSION]);
        self.row = record[ROW];
        self.column = record[COLUMN];
        self.screen_mode = screen_mode(record[SCREEN_MODE]);
        self.print_mode = print_mode(record[PRINT_MODE]);
        self.cursor = match record[CURSOR] {
            0 => CursorState::None,
            1 => CursorState::HalfWidth,
            _ => CursorState::FullWidth,
        };
        self.set_dirty(layout::four(record, DIRTY));
        for (word, four) in self.key_mapping_addr_set.iter_mut().zip(record[KEYS..FLAGS].chunks_exact(4)) {
            *word = u32::from_le_bytes([four[0], four[1], four[2], four[3]]);
        }
        self.props.key_mapping_addrs = key_addresses(&self.key_mapping_addr_set);
        for (flag, byte) in self.inverse_text.iter_mut().zip(&record[FLAGS..FLAGS_END]) {
            *flag = *byte == 1;
        }
    }
}

pub(crate) fn screen_mode(number: u8) -> ScreenMode {
    if number == 0 { ScreenMode::Text } else { ScreenMode::Graph }
}

pub(crate) fn print_mode(number: u8) -> PrintMode {
    match number {
        0 => PrintMode::Normal,
        1 => PrintMode::Inverse,
        _ => PrintMode::Flash,
    }
}

fn emoji_version(number: u8) -> EmojiVersion {
    if number == 0 { EmojiVersion::V1 } else { EmojiVersion::V2 }
}

fn key_addresses(keys: &[u32; 8]) -> Vec<u16> {
    (0..256u16).filter(|address| keys[*address as usize / 32] >> (address % 32) & 1 == 1).collect()
}

fn put_word(record: &mut [u8; RECORD], place: usize, value: u16) {
    record[place..place + 2].copy_from_slice(&value.to_le_bytes());
}
