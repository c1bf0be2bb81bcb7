//! Open and reset, memory and its bytes.

use crate::common::{Buffers, Kind, NUMBERS, Seen, other_setup, rect, seen};
use caption::{
    Caller, Cursor, DrawMode, Edge, Glass, Keys, LoadError, Place, PrintMode, Refusal, Screen, ScreenMode, Setup,
    Version,
};
use caption_sys::layout;
use std::error::Error;

const KEYS: [u16; 8] = [1, 34, 67, 100, 133, 166, 199, 232];

/// Everything that an open sets but for what it is told.
fn assert_opened<P: Place>(screen: &Screen<P>, keys: &[u16]) {
    let byte = |address| match address {
        0xffff => 0x40,
        address if keys.contains(&address) => 0xff,
        _ => 0,
    };
    assert!(screen.memory().iter().copied().eq((0..=0xffff).map(byte)));
    assert_eq!((screen.row(), screen.column()), (Ok(0), Ok(0)));
    assert_eq!((screen.screen_mode(), screen.print_mode()), (ScreenMode::Text, PrintMode::Normal));
    assert_eq!((screen.cursor(), screen.dirty()), (Cursor::None, rect(0, 0, 0, 0)));
    assert_eq!((screen.glass(), screen.caller()), (Glass::Small, Caller::Zero));
    for number in NUMBERS {
        let bands = [0, 1, 2, 3, 4].map(|band| rect(0, band * 16, 160, band * 16 + 16));
        assert_eq!(screen.owed(number).unwrap()[..], bands);
        assert_eq!((screen.in_hand(number), screen.lines_sent(number)), (Ok(rect(0, 0, 0, 0)), Ok(0)));
    }
}

#[test]
fn an_open_has_what_it_is_told() {
    let plain = Screen::open(&Setup::default()).unwrap();
    assert_opened(&plain, &[]);
    assert_eq!((plain.graphics_base(), plain.text_base()), (4_096, 8_192));
    assert_eq!((plain.version(), plain.edge()), (Version::V2, Edge::Clamp));

    let mut buffers = Buffers::new();
    let other = buffers.open(&other_setup(), [Kind::Direct; 4]).unwrap();
    assert_opened(&other, &KEYS);
    assert_eq!((other.graphics_base(), other.text_base()), (0x3000, 0x1234));
    assert_eq!((other.version(), other.edge()), (Version::V1, Edge::Stop));
}

#[test]
fn an_open_leaves_the_panels() {
    let mut buffers = Buffers::new();
    let mut were = buffers.clone();
    buffers.open(&Setup::new(), [Kind::Direct, Kind::Driven, Kind::Absent, Kind::Driven]).unwrap();
    (were.record, were.memory) = (buffers.record.clone(), buffers.memory.clone());
    assert!(buffers == were);
}

#[test]
fn a_reset_keeps_what_is_in_hand_and_the_counts() {
    let mut screen = Screen::open(&other_setup()).unwrap();
    let Seen { record: opened, memory, .. } = seen(&screen);
    screen.draw_line(0, 0, 159, 79, DrawMode::Or).unwrap();
    screen.set_print_mode(PrintMode::Inverse).unwrap();
    screen.print(b"I was").unwrap();
    screen.blink_cursor().unwrap();
    screen.write_byte(0x5000, 7).unwrap();
    for number in [1, 2, 2, 3, 3, 3] {
        screen.send(number).unwrap();
    }
    let before = seen(&screen);
    screen.reset().unwrap();

    let mut record = opened;
    for number in NUMBERS.map(usize::from) {
        let kept = layout::in_hand(number)..layout::part(number).end;
        record[kept.clone()].copy_from_slice(&before.record[kept]);
    }
    assert!(seen(&screen) == Seen { record, memory, ..before });
    assert_eq!(NUMBERS.map(|number| screen.lines_sent(number).unwrap()), [0, 1, 2, 3]);
    assert_eq!(NUMBERS.map(|number| screen.in_hand(number).unwrap().lines()), [0, 15, 14, 13]);
}

#[test]
fn a_byte_of_memory_is_written_where_it_may_be() {
    let mut screen = Screen::open(&Setup::new().keys(Keys::new().with(9))).unwrap();
    let table = [(0x2345, 0x67, true), (8, 0x12, true), (9, 0x12, false), (0xdfff, 1, true), (0xe000, 1, false)];
    for (address, byte, written) in table {
        let mut memory = screen.memory().to_vec();
        screen.write_byte(address, byte).unwrap();
        if written {
            memory[usize::from(address)] = byte;
        }
        assert!(screen.memory() == memory, "address {address:#x}");
    }
    assert!(screen.dirty().is_empty());
}

#[test]
fn a_byte_of_the_screen_marks_its_pixels() {
    let mut screen = Screen::open(&Setup::new()).unwrap();
    screen.write_byte(4_096 + 20 * 7 + 3, 0x81).unwrap();
    assert!(screen.check_point(24, 7).unwrap() && screen.check_point(31, 7).unwrap());
    assert_eq!(screen.dirty(), rect(24, 7, 32, 8));
}

#[test]
fn a_load_writes_all_bytes_or_none() {
    let mut screen = Screen::open(&Setup::new().keys(Keys::new().with(40))).unwrap();
    screen.load(0x2100, &[7, 8, 9]).unwrap();
    assert_eq!(screen.memory()[0x20ff..0x2104], [0, 7, 8, 9, 0]);
    screen.load(0xdffe, &[1, 2]).unwrap();
    assert_eq!(screen.memory()[0xdffe..0xe001], [1, 2, 0]);
    screen.load(4_096 + 20 * 79, &[0xff]).unwrap();
    assert_eq!(screen.dirty(), rect(0, 79, 8, 80));

    let before = seen(&screen);
    for (address, length, fixed) in [(38, 3, 40), (0xdfff, 2, 0xe000), (0xffff, 1, 0xffff), (0xff00, 500, 0xff00)] {
        let refused = screen.load(address, &vec![3; length]);
        assert_eq!(refused, Err(LoadError::Fixed { address: fixed }));
        assert!(seen(&screen) == before);
    }
    screen.load(0xffff, &[]).unwrap();
    assert!(seen(&screen) == before);
}

#[test]
fn a_load_error_says_what_it_is() {
    let fixed = LoadError::Fixed { address: 0xe001 };
    let refused = LoadError::from(Refusal::State);
    assert!(fixed.to_string().contains("0xe001") && fixed.source().is_none());
    assert_eq!(refused, LoadError::Refused(Refusal::State));
    assert_eq!(refused.to_string(), Refusal::State.to_string());
    assert_eq!(refused.source().unwrap().to_string(), Refusal::State.to_string());
}
