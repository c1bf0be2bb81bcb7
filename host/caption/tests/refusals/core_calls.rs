//! The 28 calls of the core over plain buffers, and what makes each of their refusals due.

use caption_sys::layout::{self, MEMORY, PANEL, RECORD, REGISTERS};
use caption_sys::{Area, Sent, Value};

/// What is lent: each a buffer of its own.
#[derive(Clone, PartialEq, Eq)]
pub struct Lent {
    pub record: Vec<u8>,
    pub memory: Vec<u8>,
    pub panel: Vec<u8>,
    pub registers: Vec<u8>,
    pub image: Vec<u8>,
    pub text: Vec<u8>,
    pub ascii8: Vec<u8>,
    pub ascii16: Vec<u8>,
    pub gb: Vec<u8>,
    pub emoji: Vec<u8>,
    pub extra_list: Vec<u8>,
    pub extra_font: Vec<u8>,
}

/// What is told.
#[derive(Clone)]
pub struct Told {
    pub graphics_base: u16,
    pub text_base: u16,
    pub version: u8,
    pub keys: u32,
    pub edge: u8,
    pub x: u8,
    pub y: u8,
    pub far_x: i32,
    pub far_y: i32,
    pub rx: u8,
    pub ry: u8,
    pub fill: u8,
    pub mode: u8,
    pub address: u16,
    pub width: u8,
    pub height: u8,
    pub row: u8,
    pub column: u8,
    pub byte: u8,
    pub number: u8,
    pub register: u8,
}

pub type Buffer = fn(&mut Lent) -> &mut Vec<u8>;
/// The number of a refusal, and what makes it due.
pub type Fault = (u32, fn(&mut Lent, &mut Told));

pub struct Call {
    pub name: &'static str,
    pub lends: Vec<(&'static str, Buffer)>,
    pub run: fn(&mut Lent, &Told) -> Vec<u32>,
    /// Beside lengths, and bytes of record and registers.
    pub faults: Vec<Fault>,
}

impl Call {
    pub fn lends(&self, name: &str) -> bool {
        self.lends.iter().any(|(lent, _)| *lent == name)
    }
}

/// The numbers of an answer, the code first.
trait Numbers {
    fn numbers(self) -> Vec<u32>;
}

impl Numbers for u32 {
    fn numbers(self) -> Vec<u32> {
        vec![self]
    }
}

impl Numbers for Value {
    fn numbers(self) -> Vec<u32> {
        vec![self.code, self.value]
    }
}

impl Numbers for Area {
    fn numbers(self) -> Vec<u32> {
        vec![self.code, self.left, self.top, self.right, self.bottom]
    }
}

impl Numbers for Sent {
    fn numbers(self) -> Vec<u32> {
        vec![self.code, self.sent, self.line, self.left, self.right]
    }
}

macro_rules! call {
    ($name:ident($($lent:ident),*; $($told:ident),*) $(, $fault:expr)*) => {
        Call {
            name: stringify!($name),
            lends: vec![$((stringify!($lent), |lent| &mut lent.$lent)),*],
            // SAFETY: each pointer is that of a vector, so not null and valid for its length, and each vector has bytes
            // of its own.
            run: |lent, _told| unsafe {
                caption_sys::$name($(lent.$lent.as_mut_ptr(), lent.$lent.len(),)* $(_told.$told),*).numbers()
            },
            faults: vec![$($fault),*],
        }
    };
}

const WINDOW: Fault = (3, |_, told| told.text_base = told.graphics_base + 1_599);
const VERSION: Fault = (4, |_, told| told.version = 2);
const EDGE: Fault = (4, |_, told| told.edge = 2);
const FILL: Fault = (4, |_, told| told.fill = 2);
const DRAW_MODE: Fault = (4, |_, told| told.mode = 4);
const PAINT_MODE: Fault = (4, |_, told| told.mode = 5);
const SCREEN_MODE: Fault = (4, |_, told| told.mode = 2);
const PRINT_MODE: Fault = (4, |_, told| told.mode = 3);
const ROW: Fault = (4, |_, told| told.row = 5);
const COLUMN: Fault = (4, |_, told| told.column = 20);
const SOURCE: Fault = (5, |_, told| told.address = 0xffff);
const RX: Fault = (6, |_, told| told.rx = 128);
const RY: Fault = (6, |_, told| told.ry = 128);
const GLYPH: Fault = (7, |lent, _| lent.ascii16.truncate(16 * 0x41 + 15));
const NUMBER: Fault = (9, |_, told| told.number = 4);
const REGISTER: Fault = (10, |_, told| told.register = 8);
const BUSY: Fault = (10, |lent, _| lent.registers.copy_from_slice(&[2, 0, 0, 1, 0, 1, 0, 0]));

#[rustfmt::skip]
pub fn all() -> Vec<Call> {
    vec![
        call!(caption_open(record, memory; graphics_base, text_base, version, keys, keys, keys, keys, keys, keys, keys, keys, edge),
            WINDOW, VERSION, EDGE),
        call!(caption_reset(record, memory;)),
        call!(caption_draw_point(record, memory; x, y, mode), DRAW_MODE),
        call!(caption_draw_line(record, memory; x, y, rx, ry, mode), DRAW_MODE),
        call!(caption_draw_box(record, memory; x, y, rx, ry, fill, mode), FILL, DRAW_MODE),
        call!(caption_draw_circle(record, memory; x, y, rx, fill, mode), FILL, DRAW_MODE, RX),
        call!(caption_draw_ellipse(record, memory; x, y, rx, ry, fill, mode), FILL, DRAW_MODE, RX, RY),
        call!(caption_check_point(record, memory; far_x, far_y)),
        call!(caption_paint_bitmap(record, memory; address, far_x, far_y, width, height, mode), PAINT_MODE, SOURCE),
        call!(caption_paint_bitmap_by_bytes(record, memory; address, far_x, far_y, width, height, mode), PAINT_MODE, SOURCE),
        call!(caption_print(record, memory, text;)),
        call!(caption_newline(record, memory;)),
        call!(caption_cls(record, memory;)),
        call!(caption_flush(record, memory, ascii8, ascii16, gb, emoji, extra_list, extra_font;), GLYPH),
        call!(caption_write_byte(record, memory; address, byte)),
        call!(caption_get_row(record;)),
        call!(caption_get_column(record;)),
        call!(caption_set_row(record; row), ROW),
        call!(caption_set_column(record; column), COLUMN),
        call!(caption_set_screen_mode(record, memory; mode), SCREEN_MODE),
        call!(caption_set_print_mode(record; mode), PRINT_MODE),
        call!(caption_blink_cursor(record, memory;)),
        call!(caption_clear_cursor(record, memory;)),
        call!(caption_take_dirty_area(record;)),
        call!(caption_send(record, memory, panel; number), NUMBER),
        call!(caption_controller_write(registers, panel; register, byte), REGISTER),
        call!(caption_controller_read(registers, panel; register), REGISTER),
        call!(caption_drive_line(record, memory, registers, panel, image; number), NUMBER, BUSY),
    ]
}

/// With which every call is done, and answers or changes something: an opened screen with an inverse A, a cursor and a
/// dirty area, and registers of which one was written.
pub fn accepted() -> (Lent, Told) {
    let bytes = |count: usize, byte: u8| vec![byte; count];
    let mut lent = Lent {
        record: bytes(RECORD, 0),
        memory: bytes(MEMORY, 0),
        panel: bytes(PANEL, 0xa5),
        registers: bytes(REGISTERS, 0),
        image: bytes(PANEL, 0x5a),
        text: b"I was in the hall,".to_vec(),
        ascii8: bytes(568, 1),
        ascii16: bytes(2_048, 2),
        gb: bytes(64, 4),
        emoji: bytes(64, 8),
        extra_list: bytes(12, 0),
        extra_font: bytes(64, 16),
    };
    let told = Told {
        graphics_base: 0x3000,
        text_base: 0x2000,
        version: 1,
        keys: 0x8000_0001,
        edge: 1,
        x: 80,
        y: 40,
        far_x: 3,
        far_y: 7,
        rx: 20,
        ry: 10,
        fill: 1,
        mode: 1,
        address: 0x3100,
        width: 9,
        height: 1,
        row: 4,
        column: 19,
        byte: 0xcc,
        number: 3,
        register: 1,
    };
    let open = &all()[0];
    assert_eq!((open.run)(&mut lent, &told), [0]);
    lent.memory[0x2000] = 0x41;
    lent.memory[0x3000 + 20 * 7] = 0xff; // pixels 0 to 7 of line 7
    lent.record[layout::FLAGS] = 1;
    lent.record[layout::ROW] = 2;
    lent.record[layout::COLUMN] = 3;
    lent.record[layout::CURSOR] = 1;
    lent.record[layout::DIRTY..][..8].copy_from_slice(&[1, 0, 2, 0, 3, 0, 4, 0]);
    lent.registers[1] = 5;
    (lent, told)
}
