//! What the safe crate refuses.

use crate::common::{Buffers, Kind, ascii16, fonts, seen};
use caption::{
    Borrowed, Command, Controller, DrawMode, Fill, Fonts, Owned, PaintMode, Panel, Place, Refusal, Register, Screen,
    Setup,
};

type Refused<P> = (Refusal, fn(&mut Screen<P>) -> Result<(), Refusal>);

const STATUS: Register = Register::Status;

/// Calls on a screen of [`prepare`], whose panel 2 is absent and whose panel 3 is busy.
fn refused_calls<P: Place>() -> Vec<Refused<P>> {
    use {DrawMode::*, Fill::*, Refusal::*};
    vec![
        (Lent, |s| s.send(2).map(drop)),
        (Lent, |s| s.panel(2).map(drop)),
        (Lent, |s| s.controller(0).map(drop)),
        (Lent, |s| s.controller(2).map(drop)),
        (Lent, |s| s.read_register(0, STATUS).map(drop)),
        (Lent, |s| s.enable_interrupt(0, true)),
        (Lent, |s| s.reset_controller(0)),
        (Lent, |s| s.repair_controller(0)),
        (Value, |s| s.set_row(5)),
        (Value, |s| s.set_row(255)),
        (Value, |s| s.set_column(20)),
        (Value, |s| s.set_column(255)),
        (Source, |s| s.paint_bitmap(0xffff, 0, 0, 9, 1, PaintMode::Not)),
        (Source, |s| s.paint_bitmap(0xfff0, 200, 200, 8, 17, PaintMode::Not)),
        (Source, |s| s.paint_bitmap_by_bytes(0xffff, 0, 0, 9, 1, PaintMode::Not)),
        (Source, |s| s.paint_bitmap_by_bytes(0xfff0, 200, 200, 8, 17, PaintMode::Not)),
        (Radius, |s| s.draw_circle(80, 40, 128, Filled, Or)),
        (Radius, |s| s.draw_circle(80, 40, 255, Outline, Clear)),
        (Radius, |s| s.draw_ellipse(80, 40, 128, 0, Outline, Xor)),
        (Radius, |s| s.draw_ellipse(80, 40, 0, 128, Filled, Unknown)),
        (Glyph, |s| s.flush(&Fonts::default())),
        (Glyph, |s| s.flush(&fonts(&ascii16()[..16 * 119 + 15]))), // all of w but its last byte
        (Panel, |s| s.send(4).map(drop)),
        (Panel, |s| s.send(255).map(drop)),
        (Panel, |s| s.panel(4).map(drop)),
        (Panel, |s| s.owed(4).map(drop)),
        (Panel, |s| s.in_hand(4).map(drop)),
        (Panel, |s| s.lines_left(4).map(drop)),
        (Panel, |s| s.lines_sent(4).map(drop)),
        (Panel, |s| s.controller(4).map(drop)),
        (Panel, |s| s.read_register(4, STATUS).map(drop)),
        (Panel, |s| s.enable_interrupt(4, true)),
        (Panel, |s| s.reset_controller(4)),
        (Panel, |s| s.repair_controller(4)),
        (Register, |s| s.send(3).map(drop)),
        (Register, |s| s.sends(3).next().unwrap().map(drop)),
    ]
}

const KINDS: [Kind; 4] = [Kind::Direct, Kind::Driven, Kind::Absent, Kind::Driven];
const BUSY: [u8; 8] = [2, 79, 19, 1, 0, 1, 0, 0];

/// Text, a cursor, and lines in hand that begin and end within bytes.
fn prepare<P: Place>(screen: &mut Screen<P>) {
    screen.print(b"I was in the hall,").unwrap();
    screen.draw_box(11, 3, 90, 50, Fill::Filled, DrawMode::Xor).unwrap();
    screen.sends(1).for_each(drop);
    screen.draw_line(3, 10, 21, 30, DrawMode::Xor).unwrap();
    screen.blink_cursor().unwrap();
    for number in [0, 0, 1] {
        screen.send(number).unwrap();
    }
}

fn lent() -> Buffers {
    let mut buffers = Buffers::new();
    buffers.registers[3].copy_from_slice(&BUSY);
    buffers
}

/// Against a twin that is not called, so that images are compared too.
#[test]
fn a_refused_call_leaves_every_byte_of_the_host() {
    let mut untouched = lent();
    prepare(&mut untouched.open(&Setup::new(), KINDS).unwrap());
    for place in 0..refused_calls::<Owned>().len() {
        let mut buffers = lent();
        let mut screen = buffers.open(&Setup::new(), KINDS).unwrap();
        prepare(&mut screen);
        let (refusal, call) = refused_calls()[place];
        assert_eq!(call(&mut screen), Err(refusal), "call {place}");
        assert!(buffers == untouched, "call {place}");
    }
}

fn owned() -> Screen {
    let mut busy = Controller::new();
    for (register, byte) in [(Register::Line, 79), (Register::FirstByte, 19), (Register::ByteCount, 1)] {
        busy.write(register, byte).unwrap();
    }
    busy.command(Command::Line).unwrap();
    let panels = [Panel::direct(), Panel::driven(Controller::new()), Panel::absent(), Panel::driven(busy)];
    let mut screen = Screen::open_with(&Setup::new(), panels).unwrap();
    prepare(&mut screen);
    screen
}

/// An image shows by what driven sends leave.
#[test]
fn a_refused_call_leaves_every_byte_of_an_owned_screen() {
    let mut untouched = owned();
    let before = seen(&untouched);
    untouched.sends(1).for_each(drop);
    let after = seen(&untouched);
    for (place, (refusal, call)) in refused_calls().into_iter().enumerate() {
        let mut screen = owned();
        assert_eq!(call(&mut screen), Err(refusal), "call {place}");
        assert!(seen(&screen) == before, "call {place}");
        screen.sends(1).for_each(drop);
        assert!(seen(&screen) == after, "call {place}");
    }
}

#[test]
fn what_is_done_early_is_not_refused() {
    let mut screen = owned();
    let before = seen(&screen);
    screen.draw_circle(80, 40, 200, Fill::Outline, DrawMode::Unknown).unwrap();
    screen.draw_ellipse(80, 40, 128, 255, Fill::Outline, DrawMode::Unknown).unwrap();
    screen.paint_bitmap(0xffff, 0, 0, 0, 9, PaintMode::Not).unwrap();
    screen.paint_bitmap_by_bytes(0xffff, 0, 0, 9, 0, PaintMode::Not).unwrap();
    assert!(seen(&screen) == before);
}

#[test]
fn bases_without_room_are_refused() {
    let shared = [(4_096, 4_096), (4_096, 5_695), (4_096, 3_997), (65_435, 65_435)];
    let beyond = [(63_936, 0), (65_535, 0), (0, 65_436), (0, 65_535)];
    for (graphics_base, text_base) in shared.into_iter().chain(beyond) {
        let setup = Setup::new().bases(graphics_base, text_base);
        let mut buffers = Buffers::new();
        assert_eq!(buffers.open(&setup, KINDS).unwrap_err(), Refusal::Window);
        assert!(buffers == Buffers::new());
        assert_eq!(Screen::open(&setup).unwrap_err(), Refusal::Window);
    }
    for (graphics_base, text_base) in [(4_096, 5_696), (4_096, 3_996), (63_935, 63_835), (0, 65_435)] {
        assert!(Screen::open(&Setup::new().bases(graphics_base, text_base)).is_ok());
    }
}

/// A row has the registers before a write that is not taken.
#[test]
fn a_controller_refuses_writes_that_it_does_not_take() {
    use Register::*;
    let idle = [0, 79, 19, 1, 0, 0, 0, 0];
    let mut table = vec![(idle, Data, 0), (idle, Status, 0), (idle, Command, 3), (idle, Enable, 2)];
    table.extend([Command, Line, FirstByte, ByteCount, Status].map(|register| (BUSY, register, 0)));
    table.extend([(BUSY, Enable, 255), (BUSY, Command, 2)]);
    let unfit = [[80, 19, 1], [79, 19, 0], [79, 19, 2], [79, 20, 1], [79, 0, 21], [79, 255, 1], [255, 0, 1]];
    table.extend(unfit.map(|[line, first, count]| ([0, line, first, count, 0, 0, 0, 0], Command, 2)));
    for (were, register, byte) in table {
        let (mut registers, mut panel) = (were, [0xff; 1_600]);
        let mut controller = Controller::in_buffers(&mut registers, &mut panel).unwrap();
        assert_eq!(controller.write(register, byte), Err(Refusal::Register), "{register:?} {byte}");
        assert_eq!((registers, panel), (were, [0xff; 1_600]), "{register:?} {byte}");
    }
}

type ControllerCall = fn(&mut Controller<Borrowed<'_>>) -> Result<(), Refusal>;

#[test]
fn damaged_registers_are_refused_by_every_call() {
    let damages = [(0, 3), (5, 4), (6, 2), (7, 1), (1, 80), (3, 0), (3, 2), (2, 255)];
    let calls: [ControllerCall; 5] = [
        |it| it.write(Register::Reset, 0),
        |it| it.read(Register::Line).map(drop),
        |it| it.status().map(drop),
        |it| it.command(Command::None),
        |it| it.enable_interrupt(true),
    ];
    for (place, byte) in damages {
        let mut were = BUSY;
        were[place] = byte;
        for call in calls {
            let (mut registers, mut panel) = (were, [0xff; 1_600]);
            let mut controller = Controller::in_buffers(&mut registers, &mut panel).unwrap();
            assert_eq!(call(&mut controller), Err(Refusal::State), "register {place}");
            assert_eq!((registers, panel), (were, [0xff; 1_600]));
        }
        let mut buffers = Buffers::new();
        buffers.registers[1].copy_from_slice(&were);
        let mut screen = buffers.open(&Setup::new(), KINDS).unwrap();
        let before = seen(&screen);
        assert_eq!(screen.send(1), Err(Refusal::State));
        assert_eq!(screen.reset_controller(1), Err(Refusal::State));
        assert!(seen(&screen) == before);
    }
}
