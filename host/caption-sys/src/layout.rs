//! Lengths of what is lent, and where the fields of the record begin. Numbers of two and four bytes have their least byte
//! first; a rectangle is left, top, right, bottom, two bytes each.

use core::ops::Range;

/// Bytes of a record.
pub const RECORD: usize = 359;
/// Bytes of memory.
pub const MEMORY: usize = 65_536;
/// How many panels a record keeps account of.
pub const PANELS: usize = 4;
/// Bytes of a panel, and of a driven panel's image.
pub const PANEL: usize = LINE * HEIGHT;
/// Bytes of the screen, in memory from the graphics base on.
pub const SCREEN: usize = PANEL;
/// Bytes of a glass controller's registers.
pub const REGISTERS: usize = 8;
/// Bytes of an entry of the extra list: code (two) and offset (four).
pub const EXTRA_ENTRY: usize = 6;
/// Memory from this address on is left as it is by pokes.
pub const FIXED_MEMORY: usize = 0xe000;

/// Pixels of a line.
pub const WIDTH: usize = 160;
/// Lines of pixels.
pub const HEIGHT: usize = 80;
/// Bytes of a line of pixels.
pub const LINE: usize = WIDTH / 8;

/// Rows of text.
pub const ROWS: usize = 5;
/// Cells of a row.
pub const COLUMNS: usize = 20;
/// Cells of the text, a byte each, in memory from the text base on.
pub const CELLS: usize = ROWS * COLUMNS;
/// Lines of pixels of a row of text.
pub const CELL_HEIGHT: usize = 16;

/// Lines of a band: what is owed to a panel is kept by text rows.
pub const BAND: usize = CELL_HEIGHT;
/// Bands, from the top down.
pub const BANDS: usize = HEIGHT / BAND;

/// Two bytes: the address of the screen's first byte.
pub const GRAPHICS_BASE: usize = 0;
/// Two bytes: the address of the text's first byte.
pub const TEXT_BASE: usize = 2;
/// The row of the next byte that is printed.
pub const ROW: usize = 4;
/// Its column.
pub const COLUMN: usize = 5;
/// A number of [`screen_mode`](crate::numbers::screen_mode).
pub const SCREEN_MODE: usize = 6;
/// A number of [`print_mode`](crate::numbers::print_mode).
pub const PRINT_MODE: usize = 7;
/// A number of [`cursor`](crate::numbers::cursor).
pub const CURSOR: usize = 8;
/// A number of [`version`](crate::numbers::version).
pub const VERSION: usize = 9;
/// A rectangle, the dirty area.
pub const DIRTY: usize = 10;
/// Eight words of four bytes: bit a % 32 of word a / 32 makes address a a key address.
pub const KEYS: usize = 70;
/// A byte for each text cell, row by row: 1 where it is printed inverse, else 0.
pub const FLAGS: usize = 102;
/// Where they end.
pub const FLAGS_END: usize = FLAGS + CELLS;

/// Where panel 0's part begins: it stands before the keys, those of the others after the flags.
pub const PANEL_0: usize = 18;
const PARTS: [usize; PANELS] = [PANEL_0, FLAGS_END, FLAGS_END + PART, FLAGS_END + 2 * PART];
/// Bytes of a rectangle.
pub const RECT: usize = 8;
/// Bytes of a panel's part: owed band by band, in hand, lines sent.
pub const PART: usize = (BANDS + 1) * RECT + 4;

/// A number of [`edge`](crate::numbers::edge).
pub const EDGE: usize = FLAGS_END + 3 * PART;

/// The part of a panel.
pub const fn part(panel: usize) -> Range<usize> {
    PARTS[panel]..PARTS[panel] + PART
}

/// The rectangle that the panel is owed in a band.
pub const fn owed(panel: usize, band: usize) -> usize {
    PARTS[panel] + band * RECT
}

/// The rectangles of all bands.
pub const fn owed_part(panel: usize) -> Range<usize> {
    PARTS[panel]..in_hand(panel)
}

/// The rectangle that the panel has in hand.
pub const fn in_hand(panel: usize) -> usize {
    PARTS[panel] + BANDS * RECT
}

/// Four bytes: the lines that were sent to the panel.
pub const fn lines_sent(panel: usize) -> usize {
    in_hand(panel) + RECT
}

/// A two-byte number.
#[inline]
pub const fn word(bytes: &[u8], place: usize) -> u16 {
    u16::from_le_bytes([bytes[place], bytes[place + 1]])
}

/// A four-byte number.
#[inline]
pub const fn double_word(bytes: &[u8], place: usize) -> u32 {
    u32::from_le_bytes([bytes[place], bytes[place + 1], bytes[place + 2], bytes[place + 3]])
}

/// Four two-byte numbers: left, top, right, bottom.
#[inline]
pub const fn four(bytes: &[u8], place: usize) -> [u16; 4] {
    [word(bytes, place), word(bytes, place + 2), word(bytes, place + 4), word(bytes, place + 6)]
}
