//! The calls over slices. All `unsafe` code of the crate stands here.
#![allow(unsafe_code)]

use caption_sys::{Area, Sent, Value};

/// A lent slice as the core takes it.
trait Lend {
    type Pointer;
    fn pointer(&mut self) -> Self::Pointer;
}

impl Lend for &mut [u8] {
    type Pointer = caption_sys::Out;
    fn pointer(&mut self) -> Self::Pointer {
        self.as_mut_ptr()
    }
}

impl Lend for &[u8] {
    type Pointer = caption_sys::In;
    fn pointer(&mut self) -> Self::Pointer {
        self.as_ptr()
    }
}

/// A function for each call: what is lent, then what is told.
macro_rules! calls {
    ($($call:ident = $name:ident($($lent:ident: $slice:ty),*; $($told:ident: $number:ty),*) -> $answer:ty;)*) => {$(
        #[inline]
        #[allow(clippy::too_many_arguments)]
        pub fn $call($(mut $lent: $slice,)* $($told: $number),*) -> $answer {
            // SAFETY: the core asks that each pointer is not null and valid for its length, and that a buffer which it
            // may write shares no byte with another. Each is that of a slice; those that are written are `&mut`.
            unsafe { caption_sys::$name($($lent.pointer(), $lent.len(),)* $($told),*) }
        }
    )*};
}

type Out<'a> = &'a mut [u8];
type In<'a> = &'a [u8];

calls! {
    open = caption_open(record: Out, memory: Out; graphics_base: u16, text_base: u16, version: u8,
        keys0: u32, keys1: u32, keys2: u32, keys3: u32, keys4: u32, keys5: u32, keys6: u32, keys7: u32, edge: u8) -> u32;
    reset = caption_reset(record: Out, memory: Out;) -> u32;

    draw_point = caption_draw_point(record: Out, memory: Out; x: u8, y: u8, mode: u8) -> u32;
    draw_line = caption_draw_line(record: Out, memory: Out; x1: u8, y1: u8, x2: u8, y2: u8, mode: u8) -> u32;
    draw_box = caption_draw_box(record: Out, memory: Out; x1: u8, y1: u8, x2: u8, y2: u8, fill: u8, mode: u8) -> u32;
    draw_circle = caption_draw_circle(record: Out, memory: Out; x: u8, y: u8, r: u8, fill: u8, mode: u8) -> u32;
    draw_ellipse = caption_draw_ellipse(record: Out, memory: Out; x: u8, y: u8, rx: u8, ry: u8, fill: u8, mode: u8) -> u32;
    check_point = caption_check_point(record: In, memory: In; x: i32, y: i32) -> Value;
    paint_bitmap = caption_paint_bitmap(record: Out, memory: Out;
        address: u16, x: i32, y: i32, width: u8, height: u8, mode: u8) -> u32;
    paint_bitmap_by_bytes = caption_paint_bitmap_by_bytes(record: Out, memory: Out;
        address: u16, x: i32, y: i32, width: u8, height: u8, mode: u8) -> u32;
    write_byte = caption_write_byte(record: Out, memory: Out; address: u16, byte: u8) -> u32;

    print = caption_print(record: Out, memory: Out, text: In;) -> u32;
    newline = caption_newline(record: Out, memory: Out;) -> u32;
    cls = caption_cls(record: Out, memory: Out;) -> u32;
    flush = caption_flush(record: Out, memory: Out,
        ascii8: In, ascii16: In, gb: In, emoji: In, extra_list: In, extra_font: In;) -> u32;
    get_row = caption_get_row(record: In;) -> Value;
    get_column = caption_get_column(record: In;) -> Value;
    set_row = caption_set_row(record: Out; row: u8) -> u32;
    set_column = caption_set_column(record: Out; column: u8) -> u32;
    set_screen_mode = caption_set_screen_mode(record: Out, memory: Out; mode: u8) -> u32;
    set_print_mode = caption_set_print_mode(record: Out; mode: u8) -> u32;
    blink_cursor = caption_blink_cursor(record: Out, memory: Out;) -> u32;
    clear_cursor = caption_clear_cursor(record: Out, memory: Out;) -> u32;

    take_dirty_area = caption_take_dirty_area(record: Out;) -> Area;
    send = caption_send(record: Out, memory: In, panel: Out; number: u8) -> Sent;

    controller_write = caption_controller_write(registers: Out, panel: Out; register: u8, value: u8) -> u32;
    controller_read = caption_controller_read(registers: Out, panel: In; register: u8) -> Value;
    drive_line = caption_drive_line(record: Out, memory: In, registers: Out, panel: Out, image: Out; number: u8) -> Sent;
}
