//! Both painters of bitmaps.

use crate::common::{rect, set_pixels};
use caption::{PaintMode, Rect, Refusal, Screen, Setup};

type Painter = fn(&mut Screen, u16, i32, i32, u8, u8, PaintMode) -> Result<(), Refusal>;

const PAINTERS: [Painter; 2] = [Screen::paint_bitmap, Screen::paint_bitmap_by_bytes];

/// With a source of three lines, eleven pixels each: 1, 3 and 10; 0; 8, 9 and 10.
fn loaded() -> Screen {
    let mut screen = Screen::open(&Setup::new()).unwrap();
    screen.load(0x2100, &[0b0101_0000, 0b0010_0000, 0b1000_0000, 0, 0, 0b1110_0000]).unwrap();
    screen
}

#[test]
fn each_paint_mode() {
    let table = [
        (PaintMode::Copy, 0b1100),
        (PaintMode::Or, 0b1110),
        (PaintMode::Not, 0b0011),
        (PaintMode::And, 0b1000),
        (PaintMode::Xor, 0b0110),
    ];
    for paint in PAINTERS {
        for (mode, bits) in table {
            let mut screen = Screen::open(&Setup::new()).unwrap();
            screen.load(screen.graphics_base(), &[0, 0b1010_1111]).unwrap();
            screen.load(0x2100, &[0b1100_0000]).unwrap();
            paint(&mut screen, 0x2100, 8, 0, 4, 1, mode).unwrap();
            assert_eq!(screen.screen().line(0)[..3], [0, bits << 4 | 0b1111, 0], "{mode:?}");
        }
    }
}

#[test]
fn a_bitmap_lies_where_it_is_told() {
    for paint in PAINTERS {
        let mut screen = loaded();
        paint(&mut screen, 0x2100, 5, 60, 11, 3, PaintMode::Copy).unwrap();
        let pixels = [(6, 60), (8, 60), (15, 60), (5, 61), (13, 62), (14, 62), (15, 62)];
        assert_eq!(set_pixels(screen.screen()), pixels);
        assert_eq!(screen.dirty(), rect(5, 60, 16, 63));
    }
}

#[test]
fn a_bitmap_is_clipped_at_every_edge() {
    let table: [(_, _, &[_], _); 5] = [
        (-8, -2, &[(0, 0), (1, 0), (2, 0)], rect(0, 0, 3, 1)),
        (158, 79, &[(159, 79)], rect(158, 79, 160, 80)),
        (-1, 78, &[(0, 78), (2, 78), (9, 78)], rect(0, 78, 10, 80)),
        (160, 0, &[], Rect::default()),
        (i32::MIN, i32::MAX, &[], Rect::default()),
    ];
    for paint in PAINTERS {
        for (x, y, pixels, mark) in table {
            let mut screen = loaded();
            paint(&mut screen, 0x2100, x, y, 11, 3, PaintMode::Copy).unwrap();
            assert_eq!((&set_pixels(screen.screen())[..], screen.dirty()), (pixels, mark), "at {x}, {y}");
        }
    }
}

#[test]
fn the_source_is_where_the_address_says() {
    for paint in PAINTERS {
        let mut screen = loaded();
        paint(&mut screen, 0x2104, 0, 0, 11, 1, PaintMode::Copy).unwrap();
        assert_eq!(set_pixels(screen.screen()), [(8, 0), (9, 0), (10, 0)]);
        paint(&mut screen, 0xfffe, 0, 5, 10, 1, PaintMode::Copy).unwrap(); // memory ends with 0x40
        assert_eq!(set_pixels(screen.screen()), [(8, 0), (9, 0), (10, 0), (9, 5)]);
    }
}

#[test]
fn a_bitmap_of_zero_size_is_nothing() {
    for paint in PAINTERS {
        for (width, height) in [(0, 3), (11, 0), (0, 0)] {
            let mut screen = loaded();
            paint(&mut screen, 0xffff, 5, 5, width, height, PaintMode::Not).unwrap();
            assert_eq!((set_pixels(screen.screen()), screen.dirty()), (vec![], Rect::default()));
        }
    }
}
