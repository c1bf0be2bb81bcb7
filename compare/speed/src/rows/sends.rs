//! Sends. The reference has none: plain Rust functions stand in its place.

use super::{Row, SCREEN_BASE, opened};
use crate::library::{Layout, Library};
use crate::limits;
use crate::plain;
use crate::side::OnBytes;
use calls::layout::*;
use calls::{Buffers, Call};
use std::hint::black_box;

/// The whole screen, and one whose lines start and end within bytes.
const WHOLE: [u16; 4] = [0, 0, 160, 80];
const NARROW: [u16; 4] = [3, 0, 157, 80];

/// What a send finds: a rectangle in hand, or none there and one owed, of a band.
#[derive(Clone, Copy)]
pub enum Found {
    InHand([u16; 4]),
    Owed(usize, [u16; 4]),
}

impl Found {
    /// The stores that the host makes before each send, so that all are alike.
    pub fn stores(self, layout: Layout, panel: usize) -> Vec<(usize, [u16; 4])> {
        match self {
            Self::InHand(rect) => vec![(layout.in_hand(panel), rect)],
            Self::Owed(band, rect) => {
                vec![(layout.in_hand(panel), [0; 4]), (layout.owed(panel, band), rect)]
            }
        }
    }
}

pub fn store(record: &mut [u8], stores: &[(usize, [u16; 4])]) {
    for (place, rect) in black_box(stores) {
        plain::store_rect(record, *place, *rect);
    }
}

pub fn rows(core: Option<Library>) -> Vec<Row> {
    let top = Found::Owed(0, [0, 0, 160, 16]);
    let last = Found::Owed(BANDS - 1, [0, 64, 160, 80]);
    vec![
        send("send, a line, plain Rust with its tests", Found::InHand(WHOLE), 0, core),
        send("send to panel 3, plain Rust with its tests", Found::InHand(WHOLE), 3, core),
        send("send, pixels 3-156, plain Rust with its tests", Found::InHand(NARROW), 0, core),
        send("send, takes the top band, plain Rust with its tests", top, 0, core),
        send("send, takes the last band, plain Rust with its tests", last, 0, core),
        send("send, idle, plain Rust with its tests", Found::InHand([0; 4]), 0, core),
        copy("send, a line, plain Rust copy alone", WHOLE, core),
        copy("send, pixels 3-156, plain Rust copy alone", NARROW, core),
    ]
}

fn send(name: &str, found: Found, number: u8, core: Option<Library>) -> Row {
    let panel = number as usize;
    let stores = found.stores(Layout::TODAY, panel);
    let work = move |buffers: &mut Buffers| {
        store(&mut buffers.record, &stores);
        let Buffers { record, memory, panels } = buffers;
        black_box(plain::send(record, memory, &mut panels[panel], black_box(number)));
    };
    by_core(Row::new(name, OnBytes { buffers: painted(), work }), found, number, core).limit(limits::SEND)
}

fn copy(name: &str, rect: [u16; 4], core: Option<Library>) -> Row {
    let stores = Found::InHand(rect).stores(Layout::TODAY, 0);
    let work = move |buffers: &mut Buffers| {
        store(&mut buffers.record, &stores);
        let [left, top, right, _] = four(&buffers.record, in_hand(0)).map(|side| side as usize);
        plain::copy_line(&buffers.memory[SCREEN_BASE..][..SCREEN], &mut buffers.panels[0], top, left, right);
    };
    by_core(Row::new(name, OnBytes { buffers: painted(), work }), Found::InHand(rect), 0, core)
}

fn by_core(row: Row, found: Found, number: u8, core: Option<Library>) -> Row {
    let send = Call::Send { number };
    let stores = core.map_or(vec![], |core| found.stores(core.layout, number as usize));
    row.with_core(core, painted(), move |core, buffers| {
        store(&mut buffers.record, &stores);
        black_box(core.answer(black_box(&send), buffers.lend(&send)));
    })
}

/// A screen that differs from the panel everywhere.
pub fn painted() -> Buffers {
    let mut buffers = opened();
    buffers.memory[SCREEN_BASE..][..SCREEN].fill(0xff);
    buffers
}
