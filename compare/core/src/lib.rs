//! The core, by its static library. calls.txt says which calls it has; the others answer `None`.

mod device;

pub use device::answer as device_answer;

use calls::{Answer, Call, Lent};
use caption_sys as ffi;

/// Whether the core has the call of this name.
pub fn has(name: &str) -> bool {
    include_str!("../calls.txt").lines().any(|known| known == name)
}

/// Give the core a call on the lent bytes; `None` if it has no such call.
#[rustfmt::skip]
pub fn answer(call: &Call, lent: Lent) -> Option<Answer> {
    let (record, record_len) = (lent.record.as_mut_ptr(), lent.record.len());
    let (memory, memory_len) = (lent.memory.as_mut_ptr(), lent.memory.len());
    let (panel, panel_len) = (lent.panel.as_mut_ptr(), lent.panel.len());
    // Each pointer is that of a slice, valid for its length, and no two slices overlap: `Lent` holds
    // them as `&mut`, and texts and fonts lie elsewhere.
    Some(unsafe { match *call {
        #[cfg(has = "open")]
        Call::Open { graphics_base, text_base, version, keys: [k0, k1, k2, k3, k4, k5, k6, k7], edge } => code(
            ffi::caption_open(
                record, record_len, memory, memory_len,
                graphics_base, text_base, version, k0, k1, k2, k3, k4, k5, k6, k7, edge,
            ),
        ),
        #[cfg(has = "reset")]
        Call::Reset => code(ffi::caption_reset(record, record_len, memory, memory_len)),
        #[cfg(has = "draw_point")]
        Call::DrawPoint { x, y, mode } => code(
            ffi::caption_draw_point(record, record_len, memory, memory_len, x, y, mode),
        ),
        #[cfg(has = "draw_line")]
        Call::DrawLine { x1, y1, x2, y2, mode } => code(
            ffi::caption_draw_line(record, record_len, memory, memory_len, x1, y1, x2, y2, mode),
        ),
        #[cfg(has = "draw_box")]
        Call::DrawBox { x1, y1, x2, y2, fill, mode } => code(
            ffi::caption_draw_box(record, record_len, memory, memory_len, x1, y1, x2, y2, fill, mode),
        ),
        #[cfg(has = "draw_circle")]
        Call::DrawCircle { x, y, r, fill, mode } => code(
            ffi::caption_draw_circle(record, record_len, memory, memory_len, x, y, r, fill, mode),
        ),
        #[cfg(has = "draw_ellipse")]
        Call::DrawEllipse { x, y, rx, ry, fill, mode } => code(
            ffi::caption_draw_ellipse(record, record_len, memory, memory_len, x, y, rx, ry, fill, mode),
        ),
        #[cfg(has = "check_point")]
        Call::CheckPoint { x, y } => value(
            ffi::caption_check_point(record, record_len, memory, memory_len, x, y),
        ),
        #[cfg(has = "paint_bitmap")]
        Call::PaintBitmap { address, x, y, width, height, mode } => code(
            ffi::caption_paint_bitmap(
                record, record_len, memory, memory_len, address, x, y, width, height, mode,
            ),
        ),
        #[cfg(has = "print")]
        Call::Print { ref text } => code(
            ffi::caption_print(record, record_len, memory, memory_len, text.as_ptr(), text.len()),
        ),
        #[cfg(has = "newline")]
        Call::Newline => code(ffi::caption_newline(record, record_len, memory, memory_len)),
        #[cfg(has = "cls")]
        Call::Cls => code(ffi::caption_cls(record, record_len, memory, memory_len)),
        #[cfg(has = "flush")]
        Call::Flush { ref fonts } => code(
            ffi::caption_flush(
                record, record_len, memory, memory_len,
                fonts.ascii8().as_ptr(), fonts.ascii8().len(), fonts.ascii16().as_ptr(), fonts.ascii16().len(),
                fonts.gb().as_ptr(), fonts.gb().len(), fonts.emoji().as_ptr(), fonts.emoji().len(),
                fonts.extra_list.as_ptr(), fonts.extra_list.len(),
                fonts.extra_font().as_ptr(), fonts.extra_font().len(),
            ),
        ),
        #[cfg(has = "get_row")]
        Call::GetRow => value(ffi::caption_get_row(record, record_len)),
        #[cfg(has = "get_column")]
        Call::GetColumn => value(ffi::caption_get_column(record, record_len)),
        #[cfg(has = "set_row")]
        Call::SetRow { row } => code(ffi::caption_set_row(record, record_len, row)),
        #[cfg(has = "set_column")]
        Call::SetColumn { column } => code(ffi::caption_set_column(record, record_len, column)),
        #[cfg(has = "set_screen_mode")]
        Call::SetScreenMode { mode } => code(
            ffi::caption_set_screen_mode(record, record_len, memory, memory_len, mode),
        ),
        #[cfg(has = "set_print_mode")]
        Call::SetPrintMode { mode } => code(ffi::caption_set_print_mode(record, record_len, mode)),
        #[cfg(has = "blink_cursor")]
        Call::BlinkCursor => code(ffi::caption_blink_cursor(record, record_len, memory, memory_len)),
        #[cfg(has = "clear_cursor")]
        Call::ClearCursor => code(ffi::caption_clear_cursor(record, record_len, memory, memory_len)),
        #[cfg(has = "write_byte")]
        Call::WriteByte { address, byte } => code(
            ffi::caption_write_byte(record, record_len, memory, memory_len, address, byte),
        ),
        #[cfg(has = "take_dirty_area")]
        Call::TakeDirtyArea => area(ffi::caption_take_dirty_area(record, record_len)),
        #[cfg(has = "send")]
        Call::Send { number } => sent(
            ffi::caption_send(record, record_len, memory, memory_len, panel, panel_len, number),
        ),
        #[cfg(has = "paint_bitmap_by_bytes")]
        Call::PaintBitmapByBytes { address, x, y, width, height, mode } => code(
            ffi::caption_paint_bitmap_by_bytes(
                record, record_len, memory, memory_len, address, x, y, width, height, mode,
            ),
        ),
        #[allow(unreachable_patterns)]
        _ => return None,
    } })
}

fn code(code: u32) -> Answer {
    Answer { code, numbers: [0; 4] }
}

fn value(value: ffi::Value) -> Answer {
    Answer { code: value.code, numbers: [value.value, 0, 0, 0] }
}

fn area(area: ffi::Area) -> Answer {
    Answer { code: area.code, numbers: [area.left, area.top, area.right, area.bottom] }
}

fn sent(sent: ffi::Sent) -> Answer {
    Answer { code: sent.code, numbers: [sent.sent, sent.line, sent.left, sent.right] }
}
