//! Buffers of the host that are too short, too long or empty.

use crate::common::{Buffers, Kind, seen};
use caption::{Controller, Fonts, Glass, Panel, Picture, Refusal, Screen, Setup};

/// As many bytes as a buffer must not have where it must have so many.
fn wrong(length: usize) -> [usize; 3] {
    [0, length - 1, length + 1]
}

const KINDS: [Kind; 4] = [Kind::Direct, Kind::Driven, Kind::Driven, Kind::Direct];

type Buffer = fn(&mut Buffers) -> &mut Vec<u8>;

#[test]
fn an_open_refuses_a_buffer_of_another_length() {
    let buffers: [(&str, Buffer); 7] = [
        ("record", |it| &mut it.record),
        ("memory", |it| &mut it.memory),
        ("panel 0", |it| &mut it.panels[0]),
        ("panel 3", |it| &mut it.panels[3]),
        ("the panel of a controller", |it| &mut it.panels[2]),
        ("registers", |it| &mut it.registers[1]),
        ("image", |it| &mut it.images[2]),
    ];
    for (name, of) in buffers {
        let right = of(&mut Buffers::new()).len();
        for length in wrong(right) {
            let mut buffers = Buffers::new();
            of(&mut buffers).resize(length, 0x77);
            let were = buffers.clone();
            assert_eq!(buffers.open(&Setup::new(), KINDS).unwrap_err(), Refusal::Lent, "{name} of {length} bytes");
            assert!(buffers == were, "{name} of {length} bytes");
        }
    }
    assert!(Buffers::new().open(&Setup::new(), KINDS).is_ok());
}

#[test]
fn lengths_are_tested_before_bases() {
    let mut buffers = Buffers::new();
    buffers.panels[0].pop();
    assert_eq!(buffers.open(&Setup::new().bases(0, 0), KINDS).unwrap_err(), Refusal::Lent);
}

#[test]
fn a_buffer_of_an_absent_panel_need_not_be_there() {
    let mut buffers = Buffers::new();
    buffers.panels[0].clear();
    buffers.registers[1].clear();
    buffers.images[2].clear();
    let kinds = [Kind::Absent, Kind::Direct, Kind::Direct, Kind::Driven];
    assert!(buffers.open(&Setup::new(), kinds).is_ok());
}

#[test]
fn a_controller_refuses_buffers_of_other_lengths() {
    for length in wrong(8) {
        let (mut registers, mut panel) = (vec![1; length], vec![2; 1_600]);
        assert_eq!(Controller::in_buffers(&mut registers, &mut panel).unwrap_err(), Refusal::Lent);
        assert!(registers == vec![1; length] && panel == vec![2; 1_600]);
    }
    for length in wrong(1_600) {
        let (mut registers, mut panel) = (vec![1; 8], vec![2; length]);
        assert_eq!(Controller::in_buffers(&mut registers, &mut panel).unwrap_err(), Refusal::Lent);
        assert!(registers == vec![1; 8] && panel == vec![2; length]);
    }
}

#[test]
fn a_driven_panel_refuses_an_image_of_another_length() {
    for length in wrong(1_600) {
        let (mut registers, mut panel, mut image) = ([0; 8], [2; 1_600], vec![3; length]);
        let controller = Controller::in_buffers(&mut registers, &mut panel).unwrap();
        assert_eq!(Panel::driven_in(controller, &mut image).unwrap_err(), Refusal::Lent);
        assert!(registers == [0; 8] && panel == [2; 1_600] && image == vec![3; length]);
    }
}

#[test]
fn a_picture_refuses_bytes_of_another_length() {
    for length in wrong(1_600) {
        assert_eq!(Picture::of(Glass::Small, &vec![0; length]), Err(Refusal::Lent));
    }
}

#[test]
fn a_flush_refuses_an_extra_list_of_no_whole_entries() {
    let mut screen = Screen::open(&Setup::new()).unwrap();
    screen.print(b"no glyph is there for this").unwrap();
    let before = seen(&screen);
    for length in (0..20).chain([59, 60, 61]) {
        let refusal = if length % 6 == 0 { Refusal::Glyph } else { Refusal::Lent };
        let fonts = Fonts { extra_list: &vec![0; length], ..Fonts::default() };
        assert_eq!(screen.flush(&fonts), Err(refusal), "{length} bytes");
        assert!(seen(&screen) == before);
    }
}
