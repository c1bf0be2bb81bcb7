//! The numbers of this crate are those of include/caption.h.

use caption_sys::layout::*;
use caption_sys::numbers::*;
use std::collections::BTreeMap;

/// `NAME = number` of its enums and `#define NAME number`, without `CAPTION_`.
fn header() -> BTreeMap<String, usize> {
    let path = concat!(env!("CARGO_MANIFEST_DIR"), "/../../include/caption.h");
    let text = std::fs::read_to_string(path).expect("the header");
    let words: Vec<&str> = text.split_whitespace().collect();
    let pairs = words.windows(3).filter_map(|words| match words {
        ["#define", name, number] => Some((*name, *number)),
        [name, "=", number] => Some((*name, number.trim_end_matches(','))),
        _ => None,
    });
    let numbers = pairs.filter_map(|(name, number)| {
        let name = name.trim_start_matches("{").strip_prefix("CAPTION_")?;
        Some((name.to_string(), number.parse().ok()?))
    });
    numbers.collect()
}

fn own() -> BTreeMap<String, usize> {
    let lengths = [
        ("RECORD_BYTES", RECORD),
        ("MEMORY_BYTES", MEMORY),
        ("PANEL_BYTES", PANEL),
        ("PANELS", PANELS),
        ("BANDS", BANDS),
        ("BAND_LINES", BAND),
        ("REGISTERS", REGISTERS),
    ];
    let places = [
        ("AT_GRAPHICS_BASE", GRAPHICS_BASE),
        ("AT_TEXT_BASE", TEXT_BASE),
        ("AT_ROW", ROW),
        ("AT_COLUMN", COLUMN),
        ("AT_SCREEN_MODE", SCREEN_MODE),
        ("AT_PRINT_MODE", PRINT_MODE),
        ("AT_CURSOR", CURSOR),
        ("AT_VERSION", VERSION),
        ("AT_DIRTY", DIRTY),
        ("AT_OWED", owed(0, 0)),
        ("AT_IN_HAND", in_hand(0)),
        ("AT_LINES_SENT", lines_sent(0)),
        ("AT_KEYS", KEYS),
        ("AT_FLAGS", FLAGS),
        ("AT_PANEL_1", part(1).start),
        ("AT_PANEL_2", part(2).start),
        ("AT_PANEL_3", part(3).start),
        ("AT_EDGE", EDGE),
    ];
    let codes = [
        ("DONE", code::DONE),
        ("LENT", code::LENT),
        ("STATE", code::STATE),
        ("WINDOW", code::WINDOW),
        ("VALUE", code::VALUE),
        ("SOURCE", code::SOURCE),
        ("RADIUS", code::RADIUS),
        ("GLYPH", code::GLYPH),
        ("PANEL", code::PANEL),
        ("REGISTER", code::REGISTER),
    ];
    let told = [
        ("V1", version::V1),
        ("V2", version::V2),
        ("EDGE_CLAMP", edge::CLAMP),
        ("EDGE_STOP", edge::STOP),
        ("DRAW_CLEAR", draw_mode::CLEAR),
        ("DRAW_OR", draw_mode::OR),
        ("DRAW_XOR", draw_mode::XOR),
        ("DRAW_UNKNOWN", draw_mode::UNKNOWN),
        ("PAINT_COPY", paint_mode::COPY),
        ("PAINT_OR", paint_mode::OR),
        ("PAINT_NOT", paint_mode::NOT),
        ("PAINT_AND", paint_mode::AND),
        ("PAINT_XOR", paint_mode::XOR),
        ("SCREEN_TEXT", screen_mode::TEXT),
        ("SCREEN_GRAPH", screen_mode::GRAPH),
        ("PRINT_NORMAL", print_mode::NORMAL),
        ("PRINT_INVERSE", print_mode::INVERSE),
        ("PRINT_FLASH", print_mode::FLASH),
        ("CURSOR_NONE", cursor::NONE),
        ("CURSOR_HALF", cursor::HALF),
        ("CURSOR_FULL", cursor::FULL),
        ("REGISTER_COMMAND", register::COMMAND),
        ("REGISTER_LINE", register::LINE),
        ("REGISTER_FIRST_BYTE", register::FIRST_BYTE),
        ("REGISTER_BYTE_COUNT", register::BYTE_COUNT),
        ("REGISTER_DATA", register::DATA),
        ("REGISTER_STATUS", register::STATUS),
        ("REGISTER_ENABLE", register::ENABLE),
        ("REGISTER_RESET", register::RESET),
        ("COMMAND_NONE", command::NONE),
        ("COMMAND_CLEAR", command::CLEAR),
        ("COMMAND_LINE", command::LINE),
        ("STATUS_BUSY", status::BUSY),
        ("STATUS_INTERRUPT", status::INTERRUPT),
    ];
    let codes = codes.map(|(name, number)| (name, number as usize));
    let told = told.map(|(name, number)| (name, usize::from(number)));
    let all = lengths.into_iter().chain(places).chain(codes).chain(told);
    all.map(|(name, number)| (name.to_string(), number)).collect()
}

#[test]
fn the_numbers_are_those_of_the_header() {
    assert_eq!(own(), header());
}

#[test]
fn the_parts_of_the_panels() {
    assert_eq!([0, 1, 2, 3].map(part), [18..70, 202..254, 254..306, 306..358]);
    assert_eq!([0, 1, 2, 3, 4].map(|band| owed(0, band)), [18, 26, 34, 42, 50]);
    assert_eq!((owed_part(0), in_hand(0), lines_sent(0)), (18..58, 58, 66));
    assert_eq!((owed(3, 4), in_hand(3), lines_sent(3)), (338, 346, 354));
}
