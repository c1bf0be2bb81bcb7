use caption_sys::layout::{EXTRA_ENTRY, double_word, word};
use fonts::made;

/// One exported call with the numbers that it is told. The edge flag that open is told is 0 clamp, 1 stop.
#[derive(Debug, Clone, PartialEq, Eq)]
pub enum Call {
    Open { graphics_base: u16, text_base: u16, version: u8, keys: [u32; 8], edge: u8 },
    Reset,
    DrawPoint { x: u8, y: u8, mode: u8 },
    DrawLine { x1: u8, y1: u8, x2: u8, y2: u8, mode: u8 },
    DrawBox { x1: u8, y1: u8, x2: u8, y2: u8, fill: u8, mode: u8 },
    DrawCircle { x: u8, y: u8, r: u8, fill: u8, mode: u8 },
    DrawEllipse { x: u8, y: u8, rx: u8, ry: u8, fill: u8, mode: u8 },
    CheckPoint { x: i32, y: i32 },
    PaintBitmap { address: u16, x: i32, y: i32, width: u8, height: u8, mode: u8 },
    Print { text: Vec<u8> },
    Newline,
    Cls,
    Flush { fonts: FontsLent },
    GetRow,
    GetColumn,
    SetRow { row: u8 },
    SetColumn { column: u8 },
    SetScreenMode { mode: u8 },
    SetPrintMode { mode: u8 },
    BlinkCursor,
    ClearCursor,
    WriteByte { address: u16, byte: u8 },
    TakeDirtyArea,
    Send { number: u8 },
    PaintBitmapByBytes { address: u16, x: i32, y: i32, width: u8, height: u8, mode: u8 },
}

/// What flush is lent: so many first bytes of each stand-in font, and the extra list.
#[derive(Debug, Clone, PartialEq, Eq)]
pub struct FontsLent {
    pub ascii8: usize,
    pub ascii16: usize,
    pub gb: usize,
    pub emoji: usize,
    pub extra_list: Vec<u8>,
    pub extra_font: usize,
}

impl FontsLent {
    /// All fonts whole, with this extra list.
    pub fn whole(extra_list: Vec<u8>) -> Self {
        Self {
            ascii8: fonts::ASCII8.len,
            ascii16: fonts::ASCII16.len,
            gb: fonts::GB.len,
            emoji: fonts::EMOJI.len,
            extra_list,
            extra_font: fonts::EXTRA.len,
        }
    }

    pub fn ascii8(&self) -> &'static [u8] {
        &made().ascii8[..self.ascii8]
    }

    pub fn ascii16(&self) -> &'static [u8] {
        &made().ascii16[..self.ascii16]
    }

    pub fn gb(&self) -> &'static [u8] {
        &made().gb[..self.gb]
    }

    pub fn emoji(&self) -> &'static [u8] {
        &made().emoji[..self.emoji]
    }

    pub fn extra_font(&self) -> &'static [u8] {
        &made().extra[..self.extra_font]
    }

    /// The whole entries of the extra list: code and offset.
    pub fn extra_entries(&self) -> impl Iterator<Item = (u16, usize)> {
        let entries = self.extra_list.chunks_exact(EXTRA_ENTRY);
        entries.map(|entry| (word(entry, 0), double_word(entry, 2) as usize))
    }
}

impl Call {
    /// The names of the calls, in the order of `number`.
    pub const NAMES: [&str; 25] = [
        "open",
        "reset",
        "draw_point",
        "draw_line",
        "draw_box",
        "draw_circle",
        "draw_ellipse",
        "check_point",
        "paint_bitmap",
        "print",
        "newline",
        "cls",
        "flush",
        "get_row",
        "get_column",
        "set_row",
        "set_column",
        "set_screen_mode",
        "set_print_mode",
        "blink_cursor",
        "clear_cursor",
        "write_byte",
        "take_dirty_area",
        "send",
        "paint_bitmap_by_bytes",
    ];

    pub fn number(&self) -> usize {
        match self {
            Self::Open { .. } => 0,
            Self::Reset => 1,
            Self::DrawPoint { .. } => 2,
            Self::DrawLine { .. } => 3,
            Self::DrawBox { .. } => 4,
            Self::DrawCircle { .. } => 5,
            Self::DrawEllipse { .. } => 6,
            Self::CheckPoint { .. } => 7,
            Self::PaintBitmap { .. } => 8,
            Self::Print { .. } => 9,
            Self::Newline => 10,
            Self::Cls => 11,
            Self::Flush { .. } => 12,
            Self::GetRow => 13,
            Self::GetColumn => 14,
            Self::SetRow { .. } => 15,
            Self::SetColumn { .. } => 16,
            Self::SetScreenMode { .. } => 17,
            Self::SetPrintMode { .. } => 18,
            Self::BlinkCursor => 19,
            Self::ClearCursor => 20,
            Self::WriteByte { .. } => 21,
            Self::TakeDirtyArea => 22,
            Self::Send { .. } => 23,
            Self::PaintBitmapByBytes { .. } => 24,
        }
    }

    pub fn name(&self) -> &'static str {
        Self::NAMES[self.number()]
    }

    /// The call's place among `NAMES`, by name.
    pub fn number_of(name: &str) -> Option<usize> {
        Self::NAMES.iter().position(|known| *known == name)
    }
}
