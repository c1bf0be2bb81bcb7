//! Printing, flushing, places, modes and the cursor.

use crate::common::{ascii16, fonts, rect, set_pixels};
use caption::{Cursor, DrawMode, ExtraList, Fonts, Full, PrintMode, Rect, Screen, ScreenMode, Setup, Version};

fn open() -> Screen {
    Screen::open(&Setup::new()).unwrap()
}

fn place(screen: &Screen) -> (u8, u8) {
    (screen.row().unwrap(), screen.column().unwrap())
}

/// The row's bytes up to the first 0.
fn row(screen: &Screen, row: usize) -> &[u8] {
    screen.text()[row * 20..][..20].split(|byte| *byte == 0).next().unwrap()
}

#[test]
fn row_and_column_are_set_and_asked() {
    let mut screen = open();
    screen.set_row(3).unwrap();
    assert_eq!(place(&screen), (3, 0));
    screen.set_column(17).unwrap();
    assert_eq!(place(&screen), (3, 17));
    screen.set_row(1).unwrap();
    assert_eq!(place(&screen), (1, 17));
    screen.print(b"!").unwrap();
    assert_eq!(screen.text()[37], b'!');
}

#[test]
fn text_wraps_and_scrolls() {
    let mut screen = open();
    screen.print(b"I was in the hall, not").unwrap();
    assert_eq!((row(&screen, 0), row(&screen, 1)), (&b"I was in the hall, n"[..], &b"ot"[..]));
    assert_eq!(place(&screen), (1, 2));
    screen.set_row(4).unwrap();
    screen.set_column(19).unwrap();
    screen.print(b"xy").unwrap();
    assert_eq!((row(&screen, 0), place(&screen)), (&b"ot"[..], (4, 1)));
    assert_eq!((screen.text()[79], screen.text()[80]), (b'x', b'y'));
    assert!(screen.dirty().is_empty());
}

#[test]
fn a_pair_is_not_split() {
    let mut screen = open();
    screen.set_column(19).unwrap();
    screen.print(&[0xb0, 0xa1]).unwrap();
    assert_eq!(screen.text()[19..22], [b' ', 0xb0, 0xa1]);
}

#[test]
fn a_newline_begins_the_next_row() {
    let mut screen = open();
    screen.newline().unwrap();
    assert_eq!(place(&screen), (0, 0));
    for (byte, expected) in [(b'a', 1), (b'b', 2), (b'c', 3), (b'd', 4), (b'e', 4)] {
        screen.print(&[byte]).unwrap();
        screen.newline().unwrap();
        assert_eq!(place(&screen), (expected, 0));
    }
    assert_eq!([0, 1, 2, 3].map(|n| row(&screen, n)[0]), *b"bcde");
}

#[test]
fn a_scroll_in_graph_moves_the_picture() {
    for (mode, moves) in [(ScreenMode::Text, false), (ScreenMode::Graph, true)] {
        let mut screen = open();
        screen.set_screen_mode(mode).unwrap();
        screen.draw_point(3, 20, DrawMode::Or).unwrap();
        screen.sends(0).for_each(drop);
        screen.take_dirty_area().unwrap();
        screen.set_row(4).unwrap();
        screen.print(b"a").unwrap();
        screen.newline().unwrap();
        assert_eq!(screen.screen_mode(), mode);
        assert_eq!(set_pixels(screen.screen()), [(3, if moves { 4 } else { 20 })]);
        assert_eq!((screen.lines_left(0), screen.dirty()), (Ok(if moves { 80 } else { 0 }), Rect::default()));
    }
}

#[test]
fn cls_and_a_screen_mode_clear_text_and_screen() {
    let clear: [(fn(&mut Screen), _); 3] = [
        (|screen| screen.cls().unwrap(), ScreenMode::Text),
        (|screen| screen.set_screen_mode(ScreenMode::Text).unwrap(), ScreenMode::Text),
        (|screen| screen.set_screen_mode(ScreenMode::Graph).unwrap(), ScreenMode::Graph),
    ];
    for (clear, mode) in clear {
        let mut screen = open();
        screen.set_print_mode(PrintMode::Inverse).unwrap();
        screen.print(b"a").unwrap();
        screen.draw_point(3, 20, DrawMode::Or).unwrap();
        screen.write_byte(0x5000, 7).unwrap();
        clear(&mut screen);
        assert_eq!((screen.screen_mode(), screen.print_mode()), (mode, PrintMode::Inverse));
        assert_eq!((place(&screen), screen.dirty()), ((0, 0), rect(0, 0, 160, 80)));
        assert!(set_pixels(screen.screen()).is_empty() && screen.text() == [0; 100] && !screen.is_inverse(0, 0));
        assert_eq!(screen.memory()[0x5000], 7);
    }
}

#[test]
fn each_print_mode_inverts_what_it_must() {
    let glyphs = ascii16();
    let table = [
        (&[PrintMode::Normal][..], PrintMode::Normal, 0x00),
        (&[PrintMode::Inverse], PrintMode::Inverse, 0xff),
        (&[PrintMode::Flash], PrintMode::Flash, 0xff),
        (&[PrintMode::Inverse, PrintMode::Flash], PrintMode::Normal, 0x00),
        (&[PrintMode::Flash, PrintMode::Inverse], PrintMode::Inverse, 0xff),
    ];
    for (asked, mode, inverted) in table {
        let mut screen = open();
        asked.iter().for_each(|mode| screen.set_print_mode(*mode).unwrap());
        assert_eq!(screen.print_mode(), mode);
        screen.set_row(1).unwrap();
        screen.set_column(4).unwrap();
        screen.print(b"A").unwrap();
        screen.flush(&fonts(&glyphs)).unwrap();
        let cells = (0..=255).flat_map(|row| (0..=255).map(move |column| (row, column)));
        let inverse: Vec<(u8, u8)> = cells.filter(|&(row, column)| screen.is_inverse(row, column)).collect();
        assert_eq!(inverse, if inverted == 0 { vec![] } else { vec![(1, 4)] });
        assert!((0..16).all(|y| screen.screen().line(16 + y)[4] == glyphs[65 * 16 + usize::from(y)] ^ inverted));
    }
}

/// As many bytes, which differ from those of another seed.
fn glyph_bytes(count: usize, seed: usize) -> Vec<u8> {
    (0..count).map(|i| (i * 37 + i / 16 + seed) as u8).collect()
}

#[test]
fn a_flush_takes_each_glyph_from_its_font() {
    let (ascii8, ascii16) = (glyph_bytes(568, 3), glyph_bytes(2_048, 50));
    let (gb, emoji, extra_font) = (glyph_bytes(64, 100), glyph_bytes(64, 150), glyph_bytes(40, 200));
    let mut extra = ExtraList::<2>::new();
    extra.push([0xfe, 0x50], 8).unwrap();
    extra.push([0xfe, 0x50], 0).unwrap(); // the first counts
    let fonts = Fonts {
        ascii8: &ascii8,
        ascii16: &ascii16,
        gb: &gb,
        emoji: &emoji,
        extra_list: extra.bytes(),
        extra_font: &extra_font,
    };
    let mut screen = open();
    screen.print(b"A\xf8\xa2\xa1\xa2\xfe\x50\xfe\x51").unwrap();
    screen.draw_point(100, 70, DrawMode::Or).unwrap();
    screen.flush(&fonts).unwrap();
    for y in 0..16 {
        let digit = |upper: u8, lower: u8| ascii8[usize::from(if y < 8 { upper } else { lower }) * 8 + y % 8];
        let expected = [
            ascii16[65 * 16 + y],
            emoji[32 + 2 * y],
            emoji[32 + 2 * y + 1],
            gb[32 + 2 * y],
            gb[32 + 2 * y + 1],
            extra_font[8 + 2 * y],
            extra_font[8 + 2 * y + 1],
            digit(b'F', b'E'),
            digit(b'5', b'1'),
        ];
        assert_eq!(screen.screen().line(y as u16)[..9], expected, "line {y}");
    }
    assert!(!screen.screen().pixel(100, 70), "Text clears the picture first");
    assert_eq!(screen.dirty(), rect(0, 0, 160, 80));
}

#[test]
fn an_extra_list_takes_as_many_entries_as_it_holds() {
    let mut extra = ExtraList::<2>::default();
    assert_eq!(extra.bytes(), []);
    let pushed = [1, 2, 3].map(|trail| extra.push([0xfe, trail], 0x0403_0201));
    assert_eq!(pushed, [Ok(()), Ok(()), Err(Full)]);
    assert_eq!(extra.bytes(), [1, 0xfe, 1, 2, 3, 4, 2, 0xfe, 1, 2, 3, 4]);
    assert!(!Full.to_string().is_empty());
}

#[test]
fn each_version_has_its_emoji() {
    for (version, first) in [(Version::V1, [0xfa, 0x46]), (Version::V2, [0xf8, 0xa1])] {
        let mut screen = Screen::open(&Setup::new().version(version)).unwrap();
        screen.print(&first).unwrap();
        let emoji = glyph_bytes(32, 9);
        screen.flush(&Fonts { emoji: &emoji, ..Fonts::default() }).unwrap();
        assert_eq!(screen.screen().line(15)[..2], emoji[30..]);
    }
}

#[test]
fn the_picture_stays_under_a_flush_in_graph() {
    let mut screen = open();
    screen.set_screen_mode(ScreenMode::Graph).unwrap();
    screen.draw_point(100, 70, DrawMode::Or).unwrap();
    screen.flush(&Fonts::default()).unwrap();
    assert_eq!(set_pixels(screen.screen()), [(100, 70)]);
}

/// The pixels of as many cells from row 2, column 3 on.
fn cells(count: u16) -> Vec<(u16, u16)> {
    (32..48).flat_map(|y| (24..24 + 8 * count).map(move |x| (x, y))).collect()
}

#[test]
fn the_cursor_inverts_its_cells_and_back() {
    let table =
        [(&b"a"[..], Cursor::Half, 1, rect(24, 32, 32, 48)), (&[0xb0, 0xa1], Cursor::Full, 2, rect(24, 32, 40, 48))];
    for (text, cursor, count, mark) in table {
        for hide in [Screen::blink_cursor, Screen::clear_cursor] {
            let mut screen = open();
            screen.set_row(2).unwrap();
            screen.set_column(3).unwrap();
            screen.print(text).unwrap();
            screen.set_column(3).unwrap();
            screen.clear_cursor().unwrap();
            assert_eq!((screen.cursor(), screen.dirty()), (Cursor::None, Rect::default()));
            screen.blink_cursor().unwrap();
            assert_eq!((screen.cursor(), screen.dirty()), (cursor, mark));
            assert_eq!(set_pixels(screen.screen()), cells(count));
            hide(&mut screen).unwrap();
            assert_eq!((screen.cursor(), set_pixels(screen.screen())), (Cursor::None, vec![]));
        }
    }
}

#[test]
fn the_cursor_is_not_shown_in_graph() {
    let mut screen = open();
    screen.blink_cursor().unwrap();
    screen.set_screen_mode(ScreenMode::Graph).unwrap();
    screen.blink_cursor().unwrap();
    assert_eq!((screen.cursor(), set_pixels(screen.screen())), (Cursor::Half, vec![]));
    screen.clear_cursor().unwrap();
    assert_eq!((screen.cursor(), set_pixels(screen.screen())), (Cursor::None, vec![]));
}
