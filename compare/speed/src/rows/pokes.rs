//! The whole screen poked byte by byte, against the reference, and against the core's entry alone.

use super::{Row, SCREEN_BASE, opened, owe_whole};
use crate::library::Library;
use crate::plain;
use crate::side::{OnBytes, OnReference};
use calls::layout::*;
use calls::{Buffers, Call};
use reference::Reference;
use std::hint::black_box;

const NAME: &str = "1,600 pokes in address order";

pub fn rows(core: Option<Library>) -> Vec<Row> {
    let mut rows = vec![against_reference(core)];
    rows.extend(core.map(against_entry));
    rows
}

/// The poke of this screen byte.
#[inline]
fn poke(place: usize) -> Call {
    Call::WriteByte { address: (SCREEN_BASE + place) as u16, byte: shade(place) }
}

/// Another byte than at the next address.
#[inline]
fn shade(place: usize) -> u8 {
    (7 * place + place / 256) as u8
}

/// Each turn starts with nothing marked, so that marks grow as for a host whose panels are level.
fn against_reference(core: Option<Library>) -> Row {
    let rust = OnReference::new(&opened(), |reference: &mut Reference, _: &mut [u8]| {
        reference.set_dirty([0; 4]);
        for place in 0..SCREEN {
            black_box(reference.call_uncaught(black_box(&poke(place))));
        }
    });
    by_core(Row::new(NAME, rust), core)
}

/// What any call of the core tests, as often. The left side's screen holds the bytes from the start on, and
/// its marks are what the pokes lead to: it pokes nothing, and its entry tests as much as theirs.
fn against_entry(core: Library) -> Row {
    let entries = move |buffers: &mut Buffers| {
        for place in 0..SCREEN {
            let call = Call::SetRow { row: place as u8 & 3 };
            black_box(core.answer(black_box(&call), buffers.lend(&call)));
        }
    };
    let left = OnBytes { buffers: core.own(poked()), work: entries };
    by_core(Row::new(format!("{NAME}, core's set_row as often"), left), Some(core))
}

fn by_core(row: Row, core: Option<Library>) -> Row {
    let marks = core.map_or(vec![], |core| core.layout.marks());
    row.with_core(core, opened(), move |core, buffers| {
        for place in &marks {
            plain::store_rect(&mut buffers.record, *place, [0; 4]);
        }
        for place in 0..SCREEN {
            let call = poke(place);
            black_box(core.answer(black_box(&call), buffers.lend(&call)));
        }
    })
}

/// What the pokes leave.
fn poked() -> Buffers {
    let mut buffers = opened();
    let screen = &mut buffers.memory[SCREEN_BASE..][..SCREEN];
    screen.iter_mut().enumerate().for_each(|(place, byte)| *byte = shade(place));
    plain::store_rect(&mut buffers.record, DIRTY, [0, 0, WIDTH as u16, HEIGHT as u16]);
    (0..PANELS).for_each(|panel| owe_whole(&mut buffers, panel));
    buffers
}
