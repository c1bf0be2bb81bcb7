//! The exported calls. A slice passes as pointer, then length; a result is a code, or a struct of `u32` by value.
//!
//! # Safety
//! Of every call: each pointer is not null, also at length 0, and valid for its length; a buffer that is passed as [`Out`]
//! shares no byte with another of the same call.

/// A code with a number: `caption_check_point`, `caption_get_row`, `caption_get_column`, `caption_controller_read`.
#[derive(Debug, Clone, Copy, PartialEq, Eq)]
#[repr(C)]
pub struct Value {
    /// 0, or the number of a refusal.
    pub code: u32,
    /// The number; 0 with a refusal.
    pub value: u32,
}

/// A code with a rectangle: `caption_take_dirty_area`.
#[derive(Debug, Clone, Copy, PartialEq, Eq)]
#[repr(C)]
pub struct Area {
    /// 0, or the number of a refusal, with zeros in the other fields.
    pub code: u32,
    /// The first column.
    pub left: u32,
    /// The first line.
    pub top: u32,
    /// The column after the last.
    pub right: u32,
    /// The line after the last.
    pub bottom: u32,
}

/// A code with a line that was sent: `caption_send`, `caption_drive_line`.
#[derive(Debug, Clone, Copy, PartialEq, Eq)]
#[repr(C)]
pub struct Sent {
    /// 0, or the number of a refusal, with zeros in the other fields.
    pub code: u32,
    /// 1 for a line, 0 for idle.
    pub sent: u32,
    /// The line.
    pub line: u32,
    /// Its first column that was copied.
    pub left: u32,
    /// The column after the last one.
    pub right: u32,
}

/// A buffer that the call may write.
pub type Out = *mut u8;
/// A buffer that it only reads.
pub type In = *const u8;

// Parameters stand in lines by what they are: lent buffers, then numbers.
#[rustfmt::skip]
unsafe extern "C" {
    /// Opens a screen: clears memory and writes the record.
    pub fn caption_open(
        record: Out, record_len: usize, memory: Out, memory_len: usize,
        graphics_base: u16, text_base: u16, version: u8,
        keys0: u32, keys1: u32, keys2: u32, keys3: u32, keys4: u32, keys5: u32, keys6: u32, keys7: u32,
        edge: u8,
    ) -> u32;
    /// Opens it again as it was opened, and keeps what the panels have in hand.
    pub fn caption_reset(record: Out, record_len: usize, memory: Out, memory_len: usize) -> u32;
    /// One pixel.
    pub fn caption_draw_point(
        record: Out, record_len: usize, memory: Out, memory_len: usize, x: u8, y: u8, mode: u8,
    ) -> u32;
    /// A line, both ends included.
    pub fn caption_draw_line(
        record: Out, record_len: usize, memory: Out, memory_len: usize,
        x1: u8, y1: u8, x2: u8, y2: u8, mode: u8,
    ) -> u32;
    /// A box by two opposite corners.
    pub fn caption_draw_box(
        record: Out, record_len: usize, memory: Out, memory_len: usize,
        x1: u8, y1: u8, x2: u8, y2: u8, fill: u8, mode: u8,
    ) -> u32;
    /// A circle round (x, y).
    pub fn caption_draw_circle(
        record: Out, record_len: usize, memory: Out, memory_len: usize,
        x: u8, y: u8, r: u8, fill: u8, mode: u8,
    ) -> u32;
    /// An ellipse round (x, y).
    pub fn caption_draw_ellipse(
        record: Out, record_len: usize, memory: Out, memory_len: usize,
        x: u8, y: u8, rx: u8, ry: u8, fill: u8, mode: u8,
    ) -> u32;
    /// Whether a pixel is set.
    pub fn caption_check_point(
        record: In, record_len: usize, memory: In, memory_len: usize, x: i32, y: i32,
    ) -> Value;
    /// A bitmap whose source lies in memory, pixel by pixel.
    pub fn caption_paint_bitmap(
        record: Out, record_len: usize, memory: Out, memory_len: usize,
        address: u16, x: i32, y: i32, width: u8, height: u8, mode: u8,
    ) -> u32;
    /// Bytes into the text cells, from row and column on.
    pub fn caption_print(
        record: Out, record_len: usize, memory: Out, memory_len: usize, text: In, text_len: usize,
    ) -> u32;
    /// The next row, unless column is 0.
    pub fn caption_newline(record: Out, record_len: usize, memory: Out, memory_len: usize) -> u32;
    /// Clears text and screen.
    pub fn caption_cls(record: Out, record_len: usize, memory: Out, memory_len: usize) -> u32;
    /// Paints the text onto the screen.
    pub fn caption_flush(
        record: Out, record_len: usize, memory: Out, memory_len: usize,
        ascii8: In, ascii8_len: usize, ascii16: In, ascii16_len: usize,
        gb: In, gb_len: usize, emoji: In, emoji_len: usize,
        extra_list: In, extra_list_len: usize, extra_font: In, extra_font_len: usize,
    ) -> u32;
    /// The row.
    pub fn caption_get_row(record: In, record_len: usize) -> Value;
    /// The column.
    pub fn caption_get_column(record: In, record_len: usize) -> Value;
    /// Another row.
    pub fn caption_set_row(record: Out, record_len: usize, row: u8) -> u32;
    /// Another column.
    pub fn caption_set_column(record: Out, record_len: usize, column: u8) -> u32;
    /// Clears text and screen, and sets the mode.
    pub fn caption_set_screen_mode(
        record: Out, record_len: usize, memory: Out, memory_len: usize, mode: u8,
    ) -> u32;
    /// The mode for what is printed from now on.
    pub fn caption_set_print_mode(record: Out, record_len: usize, mode: u8) -> u32;
    /// Shows the cursor, or inverts it away.
    pub fn caption_blink_cursor(record: Out, record_len: usize, memory: Out, memory_len: usize) -> u32;
    /// Inverts it away if it is shown.
    pub fn caption_clear_cursor(record: Out, record_len: usize, memory: Out, memory_len: usize) -> u32;
    /// One byte of memory.
    pub fn caption_write_byte(
        record: Out, record_len: usize, memory: Out, memory_len: usize, address: u16, byte: u8,
    ) -> u32;
    /// The dirty area, which is empty afterwards.
    pub fn caption_take_dirty_area(record: Out, record_len: usize) -> Area;
    /// One line to a panel.
    pub fn caption_send(
        record: Out, record_len: usize, memory: In, memory_len: usize, panel: Out, panel_len: usize,
        number: u8,
    ) -> Sent;
    /// As `caption_paint_bitmap`, byte by byte.
    pub fn caption_paint_bitmap_by_bytes(
        record: Out, record_len: usize, memory: Out, memory_len: usize,
        address: u16, x: i32, y: i32, width: u8, height: u8, mode: u8,
    ) -> u32;
    /// A byte to a register of a glass controller.
    pub fn caption_controller_write(
        registers: Out, registers_len: usize, panel: Out, panel_len: usize, register_number: u8, value: u8,
    ) -> u32;
    /// The byte of a register.
    pub fn caption_controller_read(
        registers: Out, registers_len: usize, panel: In, panel_len: usize, register_number: u8,
    ) -> Value;
    /// A send through a glass controller.
    pub fn caption_drive_line(
        record: Out, record_len: usize, memory: In, memory_len: usize,
        registers: Out, registers_len: usize, panel: Out, panel_len: usize, image: Out, image_len: usize,
        number: u8,
    ) -> Sent;
}
