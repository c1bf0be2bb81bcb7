use crate::Call;

/// What both painters are told: the one by pixels and the one by bytes. They leave the same.
#[derive(Debug, Clone, Copy, PartialEq, Eq, Hash)]
pub struct Painting {
    pub address: u16,
    pub x: i32,
    pub y: i32,
    pub width: u8,
    pub height: u8,
    pub mode: u8,
}

impl Painting {
    /// What a call is told, if it is one of the painters.
    pub fn of(call: &Call) -> Option<Self> {
        match *call {
            Call::PaintBitmap { address, x, y, width, height, mode }
            | Call::PaintBitmapByBytes { address, x, y, width, height, mode } => {
                Some(Self { address, x, y, width, height, mode })
            }
            _ => None,
        }
    }

    pub fn by_pixels(self) -> Call {
        let Self { address, x, y, width, height, mode } = self;
        Call::PaintBitmap { address, x, y, width, height, mode }
    }

    pub fn by_bytes(self) -> Call {
        let Self { address, x, y, width, height, mode } = self;
        Call::PaintBitmapByBytes { address, x, y, width, height, mode }
    }

    /// How many bytes a source of this size has: each line starts on a byte.
    pub fn source_bytes(width: u8, height: u8) -> usize {
        (width as usize).div_ceil(8) * height as usize
    }
}
