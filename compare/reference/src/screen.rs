use crate::device::default::DefaultDevice;
use crate::device::default::access::{print_mode, screen_mode};
use crate::device::{Device, DrawMode, PaintMode};
use crate::flush::{Walk, behind_text, can_follow};
use calls::layout::{HEIGHT, LINE, RECORD, SCREEN};
use calls::{Call, FontsLent};
use std::cell::Cell;
use std::panic::{self, AssertUnwindSafe};
use std::sync::Once;

const LAST_LINE: usize = HEIGHT - 1;
/// The last byte of a line; its lowest bit is the last pixel.
const LAST_BYTE: usize = LINE - 1;

/// What the reference made of a call.
#[derive(Debug, Clone, Copy, PartialEq, Eq)]
pub enum Told {
    Answer([u32; 4]),
    Panicked,
}

/// The reference with its own memory.
pub struct Reference {
    device: Box<DefaultDevice>,
}

impl Default for Reference {
    fn default() -> Self {
        silence_reference_panics();
        Self { device: Box::new(DefaultDevice::opened(0, 1600, 1, &[0; 8])) }
    }
}

impl Reference {
    pub fn memory(&self) -> &[u8] {
        self.device.memory()
    }

    /// The fields as a record; the panels' parts and the edge flag are zero.
    pub fn record(&self) -> [u8; RECORD] {
        self.device.record()
    }

    /// Take over the fields of a valid record, and memory.
    pub fn load(&mut self, record: &[u8], memory: &[u8]) {
        self.device.load(record, memory);
    }

    pub fn set_dirty(&mut self, dirty: [u16; 4]) {
        self.device.set_dirty(dirty);
    }

    /// Take over the pixels of a screen's last line and last column: all that lines which are clamped and
    /// lines which stop can leave differently.
    pub fn load_edge(&mut self, screen: &[u8]) {
        let base = self.device.graphics_base();
        let own = &mut self.device.memory_mut()[base..base + SCREEN];
        for (place, (byte, edge)) in own.iter_mut().zip(screen).enumerate() {
            let mask = match (place / LINE, place % LINE) {
                (LAST_LINE, _) => 0xff,
                (_, LAST_BYTE) => 1,
                _ => 0,
            };
            *byte = *byte & !mask | edge & mask;
        }
    }

    /// Row and column by plain stores, for calls that are measured from the same place each time.
    #[inline]
    pub fn set_place(&mut self, row: u8, column: u8) {
        self.device.set_place(row, column);
    }

    /// Whether document 01 with the change requests expects of this accepted call what the reference
    /// does. Only some flushes read or show what the reference must not be asked about.
    pub fn can_follow(&self, call: &Call) -> bool {
        if let Call::Flush { fonts } = call { can_follow(&self.device, fonts) } else { true }
    }

    /// The codes of the pairs that a flush of the text, as it is, shows.
    pub fn pairs_shown(&self) -> Vec<u16> {
        Walk::of_device(&self.device).pairs
    }

    /// Give the reference a call whose modes and flags are listed ones. It has no send, and one painter
    /// for both calls.
    pub fn call(&mut self, call: &Call) -> Told {
        IN_REFERENCE.set(true);
        let answer = panic::catch_unwind(AssertUnwindSafe(|| self.call_uncaught(call)));
        IN_REFERENCE.set(false);
        answer.map_or(Told::Panicked, Told::Answer)
    }

    /// The same without catching a panic, to be measured.
    pub fn call_uncaught(&mut self, call: &Call) -> [u32; 4] {
        let device = &mut *self.device;
        match *call {
            Call::Open { graphics_base, text_base, version, ref keys, .. } => {
                self.open(graphics_base, text_base, version, keys);
            }
            Call::Reset => device.reset(),
            Call::DrawPoint { x, y, mode } => device.draw_point((x, y), draw_mode(mode)),
            Call::DrawLine { x1, y1, x2, y2, mode } => {
                device.draw_line((x1, y1), (x2, y2), draw_mode(mode));
            }
            Call::DrawBox { x1, y1, x2, y2, fill, mode } => {
                device.draw_box((x1, y1), (x2, y2), fill == 1, draw_mode(mode));
            }
            Call::DrawCircle { x, y, r, fill, mode } => {
                device.draw_circle((x, y), r, fill == 1, draw_mode(mode));
            }
            Call::DrawEllipse { x, y, rx, ry, fill, mode } => {
                device.draw_ellipse((x, y), (rx, ry), fill == 1, draw_mode(mode));
            }
            Call::CheckPoint { x, y } => return value(device.check_point((x, y)) as u8),
            Call::PaintBitmap { address, x, y, width, height, mode }
            | Call::PaintBitmapByBytes { address, x, y, width, height, mode } => {
                device.paint_bitmap(address, x, y, width, height, paint_mode(mode));
            }
            Call::Print { ref text } => device.print(text),
            Call::Newline => device.newline(),
            Call::Cls => device.cls(),
            Call::Flush { ref fonts } => self.flush(fonts),
            Call::GetRow => return value(device.get_row()),
            Call::GetColumn => return value(device.get_column()),
            Call::SetRow { row } => device.set_row(row),
            Call::SetColumn { column } => device.set_column(column),
            Call::SetScreenMode { mode } => device.set_screen_mode(screen_mode(mode)),
            Call::SetPrintMode { mode } => device.set_print_mode(print_mode(mode)),
            Call::BlinkCursor => device.blink_cursor(),
            Call::ClearCursor => device.clear_cursor(),
            Call::WriteByte { address, byte } => device.write_byte(address, byte),
            Call::TakeDirtyArea => {
                let area = device.take_dirty_area();
                return area.map_or([0; 4], |r| [r.left, r.top, r.right, r.bottom].map(|side| side as u32));
            }
            Call::Send { .. } => unreachable!("the reference has no send"),
        }
        [0; 4]
    }

    /// A function of its own: a device on the stack would slow down all calls.
    #[inline(never)]
    fn open(&mut self, graphics_base: u16, text_base: u16, version: u8, keys: &[u32; 8]) {
        *self.device = DefaultDevice::opened(graphics_base, text_base, version, keys);
    }

    /// The reference's flush alone, to be measured: with the extra symbols that the last flush had.
    pub fn flush_alone(&mut self) {
        self.device.flush();
    }

    fn flush(&mut self, fonts: &FontsLent) {
        let device = &mut *self.device;
        device.set_extra_symbols(fonts.extra_entries(), fonts.extra_font());
        let behind = behind_text(device);
        let kept = device.memory()[behind.clone()].to_vec();
        device.memory_mut()[behind.clone()].fill(0);
        device.flush();
        device.memory_mut()[behind].copy_from_slice(&kept);
    }
}

fn value(number: u8) -> [u32; 4] {
    [number as u32, 0, 0, 0]
}

fn draw_mode(number: u8) -> DrawMode {
    match number {
        0 => DrawMode::Clear,
        1 => DrawMode::Or,
        2 => DrawMode::Xor,
        _ => DrawMode::Unknown,
    }
}

fn paint_mode(number: u8) -> PaintMode {
    match number {
        0 => PaintMode::Copy,
        1 => PaintMode::Or,
        2 => PaintMode::Not,
        3 => PaintMode::And,
        _ => PaintMode::Xor,
    }
}

thread_local! {
    static IN_REFERENCE: Cell<bool> = const { Cell::new(false) };
}

/// The reference's panics are expected and caught: they print nothing. Others print as ever.
fn silence_reference_panics() {
    static ONCE: Once = Once::new();
    ONCE.call_once(|| {
        let usual = panic::take_hook();
        panic::set_hook(Box::new(move |info| {
            if !IN_REFERENCE.get() {
                usual(info);
            }
        }));
    });
}

#[test]
fn the_edge_is_the_last_line_and_the_last_column() {
    let mut reference = Reference::default();
    let base = reference.device.graphics_base();
    reference.load_edge(&[0xff; SCREEN]);
    let screen = &reference.memory()[base..base + SCREEN];
    for (line, bytes) in screen.chunks(LINE).enumerate() {
        let due: [u8; LINE] = if line == 79 {
            [0xff; LINE]
        } else {
            std::array::from_fn(|byte| if byte == 19 { 1 } else { 0 })
        };
        assert_eq!(bytes, due, "{line}");
    }
}
