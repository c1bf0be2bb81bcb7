//! The rows of the table: what is measured, on which two sides.

mod bitmaps;
mod cues;
mod device;
mod drawings;
mod edges;
mod flushes;
mod pokes;
mod sends;
mod text;

pub use drawings::TWO_POINTS;

use crate::library::Library;
use crate::limits;
use crate::plain;
use crate::side::{ByCore, OnBytes, OnReference, Side};
use calls::layout::*;
use calls::{Buffers, Call};
use reference::Reference;
use std::hint::black_box;

pub struct Row {
    pub name: String,
    /// The reference, plain Rust, or the core itself, as the name says.
    pub rust: Box<dyn Side>,
    pub core: Option<ByCore>,
    pub limit: Option<f64>,
}

/// All of them; without a core only the Rust sides, and no rows of the core against itself.
pub fn rows(core: Option<Library>) -> Vec<Row> {
    let mut rows = vec![
        set_row("set_row, plain Rust with its tests", opened(), core),
        set_row("set_row, all owed, plain Rust with its tests", all_owed(), core),
    ];
    rows.extend(drawings::rows(core));
    rows.extend(edges::rows(core));
    rows.extend(pokes::rows(core));
    rows.extend(bitmaps::rows(core));
    rows.extend(text::rows(core));
    rows.extend(flushes::rows(core));
    rows.extend(sends::rows(core));
    rows.extend(device::rows(core));
    rows.extend(cues::rows(core));
    rows
}

impl Row {
    fn new(name: impl Into<String>, rust: impl Side + 'static) -> Self {
        Self { name: name.into(), rust: Box::new(rust), core: None, limit: None }
    }

    fn limit(self, limit: f64) -> Self {
        Self { limit: Some(limit), ..self }
    }

    /// The core's side, from these bytes.
    fn with_core(
        self,
        core: Option<Library>,
        buffers: Buffers,
        work: impl Fn(Library, &mut Buffers) + 'static,
    ) -> Self {
        let side = core.map(|core| ByCore::new(core.own(buffers), move |buffers| work(core, buffers)));
        Self { core: side, ..self }
    }

    /// One call of the reference and of the core, both from the state of these bytes.
    fn call(name: impl Into<String>, call: Call, start: Buffers, core: Option<Library>) -> Self {
        Self::call_after(name, call, start, core, |_| {}, |_| {})
    }

    /// The same; before each call the host sets something on both sides, by plain stores.
    fn call_after(
        name: impl Into<String>,
        call: Call,
        start: Buffers,
        core: Option<Library>,
        on_reference: impl Fn(&mut Reference) + 'static,
        on_bytes: impl Fn(&mut Buffers) + 'static,
    ) -> Self {
        let call_of_core = call.clone();
        let rust = OnReference::new(&start, move |reference: &mut Reference, _: &mut [u8]| {
            on_reference(reference);
            black_box(reference.call_uncaught(black_box(&call)));
        });
        Self::new(name, rust).with_core(core, start, move |core, buffers| {
            on_bytes(buffers);
            black_box(core.answer(black_box(&call_of_core), buffers.lend(&call_of_core)));
        })
    }
}

/// What an open with panelrun's windows leaves, with nothing owed.
pub fn opened() -> Buffers {
    let mut buffers = Buffers::zero();
    buffers.record[GRAPHICS_BASE..][..2].copy_from_slice(&(SCREEN_BASE as u16).to_le_bytes());
    buffers.record[TEXT_BASE..][..2].copy_from_slice(&(TEXT_START as u16).to_le_bytes());
    buffers.record[VERSION] = 1;
    buffers
}

const SCREEN_BASE: usize = 4096;
const TEXT_START: usize = 8192;

/// The same with something marked, owed and in hand everywhere, which takes other ways through the
/// tests.
fn all_owed() -> Buffers {
    let mut buffers = opened();
    plain::store_rect(&mut buffers.record, DIRTY, [1, 2, 200, 100]);
    for panel in 0..PANELS {
        owe_whole(&mut buffers, panel);
        plain::store_rect(&mut buffers.record, in_hand(panel), [3, 4, 150, 70]);
    }
    buffers
}

/// The whole screen owed to a panel, by plain stores.
fn owe_whole(buffers: &mut Buffers, panel: usize) {
    for band in 0..BANDS {
        let top = (band * BAND) as u16;
        plain::store_rect(&mut buffers.record, owed(panel, band), [0, top, 160, top + BAND as u16]);
    }
}

/// What the tests of a record cost: the reference's `set_row` has none.
fn set_row(name: &str, start: Buffers, core: Option<Library>) -> Row {
    let mut rows = (0..5).cycle();
    let rust = OnBytes {
        buffers: start.clone(),
        work: move |buffers: &mut Buffers| {
            let row = rows.next().unwrap_or(0);
            black_box(plain::set_row(&mut buffers.record, black_box(row)));
        },
    };
    let calls: Vec<Call> = (0..5).map(|row| Call::SetRow { row }).collect();
    let turn = std::cell::Cell::new(0);
    let row = Row::new(name, rust).limit(limits::ENTRY);
    row.with_core(core, start, move |core, buffers| {
        turn.set((turn.get() + 1) % calls.len());
        let call = &calls[turn.get()];
        black_box(core.answer(black_box(call), buffers.lend(call)));
    })
}
