//! Sends to the four panels, and what a host sees of them.

use crate::common::{Buffers, Kind, NUMBERS, panels, rect, seen};
use caption::{Caller, DrawMode, Glass, Picture, Place, Rect, Refusal, Screen, Sent, Setup};
use caption_sys::layout;

const KINDS: [Kind; 4] = [Kind::Direct, Kind::Driven, Kind::Driven, Kind::Direct];

/// Owned, with every second pixel set.
fn striped() -> Screen {
    let mut screen = Screen::open_with(&Setup::new(), panels(KINDS)).unwrap();
    screen.load(screen.graphics_base(), &[0xaa; 1_600]).unwrap();
    screen
}

#[test]
fn a_send_goes_to_the_panel_of_its_number() {
    for number in NUMBERS {
        let mut screen = striped();
        let mut expected = seen(&screen);
        assert_eq!(screen.send(number), Ok(Sent::Line { y: 0, left: 0, right: 160 }));

        let part = layout::part(number.into());
        assert!(screen.record()[..part.start] == expected.record[..part.start]);
        assert!(screen.record()[part.end..] == expected.record[part.end..]);
        expected.record = screen.record().to_vec();
        expected.panels[usize::from(number)].as_mut().unwrap()[..20].fill(0xaa);
        if let Some(registers) = &mut expected.registers[usize::from(number)] {
            *registers = vec![2, 0, 20, 0, 0xaa, 0, 0, 0];
        }
        assert!(seen(&screen) == expected);
        assert_eq!(NUMBERS.map(|n| screen.lines_sent(n).unwrap()), NUMBERS.map(|n| u32::from(n == number)));
        assert_eq!(NUMBERS.map(|n| screen.lines_left(n).unwrap()), NUMBERS.map(|n| 80 - u32::from(n == number)));
        assert_eq!(screen.in_hand(number), Ok(rect(0, 1, 160, 16)));
        assert_eq!((screen.owed(number).unwrap()[0], screen.owed(number).unwrap().lines()), (Rect::default(), 64));
    }
}

#[test]
fn a_send_copies_the_pixels_of_its_line_alone() {
    for number in NUMBERS {
        let mut screen = striped();
        screen.sends(number).for_each(drop);
        screen.draw_line(11, 33, 20, 33, DrawMode::Or).unwrap();
        screen.draw_point(50, 5, DrawMode::Or).unwrap();
        assert_eq!(screen.send(number), Ok(Sent::Line { y: 5, left: 50, right: 51 }));
        assert!(screen.screen().differing(screen.panel(number).unwrap()).eq([
            (11, 33),
            (13, 33),
            (15, 33),
            (17, 33),
            (19, 33)
        ]));
        assert_eq!(screen.send(number), Ok(Sent::Line { y: 33, left: 11, right: 21 }));
        assert_eq!((screen.send(number), screen.send(number)), (Ok(Sent::Idle), Ok(Sent::Idle)));
        assert_eq!((screen.panel(number), screen.lines_sent(number)), (Ok(screen.screen()), Ok(82)));
    }
}

#[test]
fn sends_go_on_until_the_panel_is_level() {
    let mut screen = striped();
    screen.send(1).unwrap();
    let mut sends = screen.sends(1);
    for y in 1..80 {
        assert_eq!(sends.next(), Some(Ok(Sent::Line { y, left: 0, right: 160 })));
        assert_eq!(sends.panel().unwrap().line(y), [0xaa; 20]);
        assert_eq!(sends.panel().unwrap().line(y + 1).first(), (y < 79).then_some(&0));
    }
    assert_eq!((sends.next(), sends.next()), (None, None));
    assert_eq!((screen.lines_left(1), screen.lines_left(2)), (Ok(0), Ok(80)));
}

#[test]
fn sends_end_with_a_refusal() {
    let kinds = [Kind::Direct, Kind::Absent, Kind::Direct, Kind::Direct];
    let mut screen = Screen::open_with(&Setup::new(), panels(kinds)).unwrap();
    for (number, refusal) in [(1, Refusal::Lent), (4, Refusal::Panel)] {
        assert!(screen.sends(number).eq([Err(refusal)]));
        assert_eq!(screen.sends(number).panel(), Err(refusal));
    }
}

#[test]
fn a_number_without_a_panel_is_owed_all_the_same() {
    let kinds = [Kind::Direct, Kind::Absent, Kind::Driven, Kind::Absent];
    let mut screen = Screen::open_with(&Setup::new(), panels(kinds)).unwrap();
    screen.sends(0).for_each(drop);
    assert_eq!(NUMBERS.map(|n| screen.lines_left(n)), [Ok(0), Ok(80), Ok(80), Ok(80)]);
    assert_eq!(NUMBERS.map(|n| screen.panel(n).is_ok()), [true, false, true, false]);
    assert_eq!(NUMBERS.map(|n| screen.controller(n).is_ok()), [false, false, true, false]);
}

#[test]
fn buffers_of_the_host_show_what_the_panels_show() {
    let mut buffers = Buffers::new();
    let mut screen = buffers.open(&Setup::new(), KINDS).unwrap();
    assert_eq!(screen.panel(2).unwrap().bytes(), [0x3c; 1_600]);
    screen.draw_line(0, 0, 159, 79, DrawMode::Or).unwrap();
    screen.sends(0).for_each(drop);
    screen.sends(2).for_each(drop);
    let seen = seen(&screen);
    assert!(seen.record == buffers.record && seen.memory == buffers.memory);
    for (number, panel) in seen.panels.into_iter().enumerate() {
        assert!(panel.as_ref() == Some(&buffers.panels[number]), "panel {number}");
        assert_eq!(buffers.panels[number] == buffers.memory[4_096..][..1_600], number % 2 == 0);
    }
    assert!(buffers.images[2] == buffers.panels[2]);
    assert_eq!(buffers.registers[2][..4], [2, 79, 20, 0]);
}

/// A point, and sends to three of the panels.
fn use_it<P: Place>(screen: &mut Screen<P>) {
    assert_eq!((screen.caller(), screen.glass()), (Caller::Zero, Glass::Small));
    screen.draw_point(3, 70, DrawMode::Or).unwrap();
    for number in [1, 1, 1, 2, 3, 3] {
        screen.send(number).unwrap();
    }
}

#[test]
fn calls_by_a_caller_are_calls_of_the_screen() {
    let [mut plain, mut lent, mut lent_twice] = [striped(), striped(), striped()];
    use_it(&mut plain);
    use_it(&mut lent.by(Caller::Zero));
    use_it(&mut lent_twice.by(Caller::Zero).by(Caller::Zero));
    assert!(seen(&lent) == seen(&plain) && seen(&lent_twice) == seen(&plain));
    for number in NUMBERS {
        lent.sends(number).for_each(drop);
        assert_eq!(lent.panel(number), Ok(lent.screen()));
    }
}

#[test]
fn a_rectangle_ends_before_right_and_bottom() {
    let some = rect(3, 20, 5, 21);
    let pixels = (0..80).flat_map(|y| (0..160).map(move |x| (x, y))).filter(|&(x, y)| some.contains(x, y));
    assert!(pixels.eq([(3, 20), (4, 20)]));
    assert_eq!((some.lines(), some.is_empty()), (1, false));
    for empty in [Rect::default(), rect(3, 20, 3, 21), rect(3, 20, 5, 20), rect(9, 9, 1, 1)] {
        assert!(empty.is_empty() && (0..80).all(|y| (0..160).all(|x| !empty.contains(x, y))));
    }
}

#[test]
fn a_picture_is_read_by_lines_pixels_and_as_a_file() {
    let mut screen = striped();
    screen.draw_point(159, 3, DrawMode::Or).unwrap();
    let picture = screen.screen();
    assert_eq!((picture.bytes().len(), picture.glass()), (1_600, Glass::Small));
    assert_eq!((picture.line(3)[19], picture.line(4)[19], picture.line(80).len()), (0xab, 0xaa, 0));
    assert!(picture.pixel(159, 3) && !picture.pixel(159, 4) && !picture.pixel(160, 3) && !picture.pixel(0, 80));
    let file: Vec<u8> = picture.pbm().collect();
    assert_eq!((file.len(), picture.pbm().size_hint()), (1_610, (1_610, Some(1_610))));
    assert!(file.starts_with(b"P4\n160 80\n") && file.ends_with(picture.bytes()));
    assert_eq!(picture.differing(screen.panel(0).unwrap()).count(), 80 * 80 + 1);
    assert_eq!(Picture::of(Glass::Small, picture.bytes()), Ok(picture));
}

#[test]
fn a_screen_is_debugged_by_its_marks() {
    let text = format!("{:?}", striped());
    assert!(
        text.starts_with(
            "Screen { glass: Small, caller: Zero, dirty: Rect { left: 0, top: 0, right: 160, bottom: 80 }"
        )
    );
    assert!(text.contains("lines_left: [80, 80, 80, 80]"));
}
