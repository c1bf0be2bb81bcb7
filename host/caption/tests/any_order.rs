//! The theorem about calls in any order, seen on the compiled core through this crate: whatever is called, what differs on
//! a panel is owed to it in its row or in hand, and as many sends as it has lines left bring it level.

mod common;

use caption::{
    DrawMode, Edge, Fill, Fonts, Keys, PaintMode, Place, PrintMode, Refusal, Register, Screen, ScreenMode, Sent, Setup,
    Version,
};
use caption_sys::layout;
use common::{Buffers, Kind, NUMBERS, ascii16, panels, seen, unaccounted};

/// Numbers that look random, always the same ones (xorshift).
struct Numbers(u64);

impl Numbers {
    fn next(&mut self) -> u64 {
        self.0 ^= self.0 << 13;
        self.0 ^= self.0 >> 7;
        self.0 ^= self.0 << 17;
        self.0 >> 16
    }

    fn below(&mut self, end: u64) -> u64 {
        self.next() % end
    }

    fn one<T: Copy>(&mut self, of: &[T]) -> T {
        of[self.below(of.len() as u64) as usize]
    }

    /// Mostly on the screen or shortly beyond it.
    fn coordinate(&mut self, size: u64) -> u8 {
        let end = self.one(&[16, size, size, size + 8, 256]);
        self.below(end) as u8
    }

    fn point(&mut self) -> (u8, u8) {
        (self.coordinate(160), self.coordinate(80))
    }

    fn far(&mut self) -> (i32, i32) {
        (self.below(220) as i32 - 40, self.below(140) as i32 - 40)
    }

    /// Up to 29 bytes, of which one in eight is the lead of a pair.
    fn text(&mut self) -> Vec<u8> {
        let length = self.below(30);
        (0..length).map(|_| if self.below(8) == 0 { 0xb0 } else { 32 + self.below(90) as u8 }).collect()
    }
}

const DRAW: [DrawMode; 4] = [DrawMode::Clear, DrawMode::Or, DrawMode::Xor, DrawMode::Unknown];
const FILLS: [Fill; 2] = [Fill::Outline, Fill::Filled];
const PAINT: [PaintMode; 5] = [PaintMode::Copy, PaintMode::Or, PaintMode::Not, PaintMode::And, PaintMode::Xor];
const PRINT: [PrintMode; 3] = [PrintMode::Normal, PrintMode::Inverse, PrintMode::Flash];

fn draw<P: Place>(screen: &mut Screen<P>, n: &mut Numbers) -> Result<(), Refusal> {
    let ((x, y), (x2, y2)) = (n.point(), n.point());
    let (rx, ry) = (n.one(&[0, 1, 5, 40, 127, 128]), n.one(&[0, 2, 9, 30, 127, 255]));
    let (fill, mode) = (n.one(&FILLS), n.one(&DRAW));
    match n.below(5) {
        0 => screen.draw_point(x, y, mode),
        1 => screen.draw_line(x, y, x2, y2, mode),
        2 => screen.draw_box(x, y, x2, y2, fill, mode),
        3 => screen.draw_circle(x, y, rx, fill, mode),
        _ => screen.draw_ellipse(x, y, rx, ry, fill, mode),
    }
}

/// Sources lie on the screen, in the text, at memory's end; pokes go to the screen and beside it.
fn change<P: Place>(screen: &mut Screen<P>, n: &mut Numbers) -> Result<(), Refusal> {
    let base = screen.graphics_base();
    let address = n.one(&[0, base, base + 700, screen.text_base(), 0xff00, 0xfffe]);
    let ((x, y), (width, height)) = (n.far(), (n.below(50) as u8, n.below(20) as u8));
    let mode = n.one(&PAINT);
    match n.below(3) {
        0 => screen.paint_bitmap(address, x, y, width, height, mode),
        1 => screen.paint_bitmap_by_bytes(address, x, y, width, height, mode),
        _ => screen.write_byte(base.wrapping_add(n.below(1_700) as u16), n.next() as u8),
    }
}

fn write<P: Place>(screen: &mut Screen<P>, n: &mut Numbers) -> Result<(), Refusal> {
    let (glyphs, short) = (ascii16(), n.below(4) == 0);
    let ascii16 = if short { &glyphs[..700] } else { &glyphs };
    match n.below(9) {
        0..3 => screen.print(&n.text()),
        3 => screen.newline(),
        4 | 5 => screen.flush(&Fonts { ascii16, ascii8: &glyphs, gb: &[0xc3; 243_648], ..Fonts::default() }),
        6 => screen.set_print_mode(n.one(&PRINT)),
        7 => screen.set_row(n.below(6) as u8),
        _ => screen.set_column(n.below(22) as u8),
    }
}

fn rarely<P: Place>(screen: &mut Screen<P>, n: &mut Numbers) -> Result<(), Refusal> {
    match n.below(6) {
        0 => screen.cls(),
        1 => screen.set_screen_mode(n.one(&[ScreenMode::Text, ScreenMode::Graph])),
        2 => screen.reset(),
        3 => screen.blink_cursor(),
        4 => screen.clear_cursor(),
        _ => screen.take_dirty_area().map(drop),
    }
}

/// What may be done with a controller beside sends.
fn device<P: Place>(screen: &mut Screen<P>, number: u8, n: &mut Numbers) -> Result<(), Refusal> {
    match n.below(4) {
        0 => screen.read_register(number, Register::Status).map(drop),
        1 => screen.enable_interrupt(number, n.below(2) == 1),
        2 => screen.repair_controller(number),
        _ => screen.reset_controller(number),
    }
}

/// One call, or sends to one panel until it is idle.
fn any_call<P: Place>(screen: &mut Screen<P>, n: &mut Numbers) -> Result<(), Refusal> {
    let number = n.below(5) as u8;
    match n.below(40) {
        0..8 => draw(screen, n),
        8..13 => change(screen, n),
        13..19 => write(screen, n),
        19 => rarely(screen, n),
        20 => device(screen, number, n),
        21 => screen.sends(number).find_map(Result::err).map_or(Ok(()), Err),
        _ => send(screen, number).map(drop),
    }
}

/// A send that leaves the other panels, their counts and their registers.
fn send<P: Place>(screen: &mut Screen<P>, number: u8) -> Result<Sent, Refusal> {
    let mut before = seen(screen);
    let sent = screen.send(number)?;
    let place = usize::from(number);
    let mut after = seen(screen);
    before.record[layout::part(place)].copy_from_slice(&after.record[layout::part(place)]);
    before.panels[place] = after.panels[place].take();
    before.registers[place] = after.registers[place].take();
    after.panels[place] = before.panels[place].clone();
    after.registers[place] = before.registers[place].clone();
    assert!(before == after, "a send to panel {number} changes something of another");
    Ok(sent)
}

fn assert_accounted<P: Place>(screen: &Screen<P>) {
    for number in NUMBERS {
        assert!(screen.lines_left(number).unwrap() <= 95);
        if screen.panel(number).is_ok() {
            assert_eq!(unaccounted(screen, number), None, "panel {number}");
        }
    }
}

/// As many sends as it has lines left, each a line; then it is level, and idle.
fn assert_comes_level<P: Place>(screen: &mut Screen<P>, number: u8) -> u32 {
    let left = screen.lines_left(number).unwrap();
    for _ in 0..left {
        assert!(matches!(send(screen, number), Ok(Sent::Line { .. })), "panel {number}");
    }
    assert!(screen.panel(number) == Ok(screen.screen()), "panel {number}");
    assert_eq!(send(screen, number), Ok(Sent::Idle), "panel {number}");
    left
}

/// How often something came about that a list must meet.
#[derive(Default)]
struct Met {
    refused: u32,
    idle: u32,
    over_80: u32,
}

fn run_list<P: Place>(screen: &mut Screen<P>, n: &mut Numbers, met: &mut Met) {
    for _ in 0..60 {
        let before = seen(screen);
        if any_call(screen, n).is_err() {
            met.refused += 1;
            assert!(seen(screen) == before, "a refused call changes something");
        }
        assert_accounted(screen);
    }
    for number in NUMBERS.into_iter().filter(|number| screen.panel(*number).is_ok()).collect::<Vec<_>>() {
        let left = assert_comes_level(screen, number);
        met.idle += u32::from(left == 0);
        met.over_80 += u32::from(left > 80);
    }
}

fn any_setup(n: &mut Numbers) -> (Setup, [Kind; 4]) {
    let (graphics_base, text_base) = n.one(&[(0, 1_600), (0x1000, 0x2000), (63_935, 0), (300, 65_435)]);
    let keys = Keys::new().with(n.next() as u8).with(n.next() as u8);
    let setup = Setup::new().bases(graphics_base, text_base).keys(keys);
    let setup = setup.version(n.one(&[Version::V1, Version::V2])).edge(n.one(&[Edge::Clamp, Edge::Stop]));
    (setup, NUMBERS.map(|_| n.one(&[Kind::Direct, Kind::Direct, Kind::Driven, Kind::Driven, Kind::Absent])))
}

#[test]
fn whatever_is_called_every_panel_comes_level() {
    let (mut n, mut met) = (Numbers(0x9e37_79b9_7f4a_7c15), Met::default());
    for _ in 0..40 {
        let (setup, kinds) = any_setup(&mut n);
        run_list(&mut Screen::open_with(&setup, panels(kinds)).unwrap(), &mut n, &mut met);
        run_list(&mut Buffers::new().open(&setup, kinds).unwrap(), &mut n, &mut met);
    }
    assert!(met.refused > 200 && met.idle > 5 && met.over_80 > 20, "{} {} {}", met.refused, met.idle, met.over_80);
}
