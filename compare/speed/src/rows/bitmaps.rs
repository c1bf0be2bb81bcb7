//! Bitmaps by bytes, against the core itself, which is its pixel painter or its entry with a plain copy,
//! and against the reference.

use super::{Row, SCREEN_BASE, opened};
use crate::library::Library;
use crate::limits;
use crate::side::OnBytes;
use calls::layout::SCREEN;
use calls::{Buffers, Call, Painting};
use std::hint::black_box;

/// A source apart from the screen.
const APART: usize = 20_000;

pub fn rows(core: Option<Library>) -> Vec<Row> {
    let core = core.filter(|core| has_painter_by_bytes(*core));
    let mut rows: Vec<Row> = core.map(against_core).into_iter().flatten().collect();
    let against_reference =
        paintings().map(|(name, told)| Row::call(by_bytes(name), told.by_bytes(), striped(), core));
    rows.extend(against_reference);
    rows
}

fn has_painter_by_bytes(core: Library) -> bool {
    let call = ALIGNED.by_bytes();
    core.answer(&call, core.own(opened()).lend(&call)).is_some()
}

fn by_bytes(name: &str) -> String {
    format!("bitmap by bytes, {name}")
}

const fn told(x: i32, y: i32, width: u8, height: u8) -> Painting {
    Painting { address: APART as u16, x, y, width, height, mode: 0 }
}

const ALIGNED: Painting = told(8, 5, 64, 64);
const ODD: Painting = told(5, 5, 64, 64);
const WHOLE: Painting = told(0, 0, 160, 80);

fn paintings() -> impl Iterator<Item = (&'static str, Painting)> {
    [
        ("64 by 64 aligned", ALIGNED),
        ("64 by 64 at an odd place", ODD),
        ("whole screen, copy", WHOLE),
        ("whole screen, or", Painting { mode: 1, ..WHOLE }),
        ("whole screen, not", Painting { mode: 2, ..WHOLE }),
        ("whole screen, and", Painting { mode: 3, ..WHOLE }),
        ("whole screen, xor", Painting { mode: 4, ..WHOLE }),
        ("160 by 80 at x = 3", Painting { x: 3, ..WHOLE }),
        ("255 by 255 at (-40, -60)", told(-40, -60, 255, 255)),
        ("7 by 9", told(77, 33, 7, 9)),
        ("64 by 64, source on the screen", Painting { address: SCREEN_BASE as u16 + 100, ..ODD }),
    ]
    .into_iter()
}

fn against_core(core: Library) -> Vec<Row> {
    vec![
        against_pixels("64 by 64 aligned", ALIGNED, core).limit(limits::BY_BYTES_ALIGNED),
        against_pixels("64 by 64 at an odd place", ODD, core).limit(limits::BY_BYTES_ODD),
        against_copy("whole screen, copy", core).limit(limits::BY_BYTES_SCREEN),
    ]
}

fn against_pixels(name: &str, told: Painting, core: Library) -> Row {
    let pixels = told.by_pixels();
    let work = move |buffers: &mut Buffers| {
        black_box(core.answer(black_box(&pixels), buffers.lend(&pixels)));
    };
    painted(format!("{}, core's pixel painter", by_bytes(name)), work, told, core)
}

/// What any call of the core tests, and a copy of the screen's bytes.
fn against_copy(name: &str, core: Library) -> Row {
    let entry = Call::SetRow { row: 0 };
    let work = move |buffers: &mut Buffers| {
        black_box(core.answer(black_box(&entry), buffers.lend(&entry)));
        buffers.memory.copy_within(APART..APART + SCREEN, SCREEN_BASE);
    };
    painted(format!("{}, core's set_row, plain copy", by_bytes(name)), work, WHOLE, core)
}

/// A row of the painter by bytes, with this work on the left side.
fn painted(name: String, left: impl FnMut(&mut Buffers) + 'static, told: Painting, core: Library) -> Row {
    let call = told.by_bytes();
    Row::new(name, OnBytes { buffers: core.own(striped()), work: left }).with_core(
        Some(core),
        striped(),
        move |core, buffers| {
            black_box(core.answer(black_box(&call), buffers.lend(&call)));
        },
    )
}

/// Source and screen with stripes of several pixels, as drawings have; not of whole bytes.
fn striped() -> Buffers {
    let mut buffers = opened();
    let stripes = [0xfc, 0x0f, 0xc0].into_iter().cycle();
    buffers.memory[APART..].iter_mut().zip(stripes).for_each(|(byte, stripe)| *byte = stripe);
    let stripes = [0xf8, 0x3e, 0x0f, 0x83, 0xe0].into_iter().cycle();
    let screen = &mut buffers.memory[SCREEN_BASE..][..SCREEN];
    screen.iter_mut().zip(stripes).for_each(|(byte, stripe)| *byte = stripe);
    buffers
}
