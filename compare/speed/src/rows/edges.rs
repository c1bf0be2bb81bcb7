//! Drawings that know the edge flag, on the glass: with flag 1, against the core's own with flag 0. They draw
//! and mark the same there.

use super::{Row, opened};
use crate::library::Library;
use crate::side::OnBytes;
use calls::layout::EDGE;
use calls::{Buffers, Call};
use std::hint::black_box;

pub fn rows(core: Option<Library>) -> Vec<Row> {
    core.into_iter()
        .flat_map(|core| drawings().map(|(name, call)| against_clamped(name, call, core)))
        .collect()
}

fn drawings() -> [(&'static str, Call); 5] {
    let mode = 2;
    let (x1, y1, x2, y2) = (3, 3, 156, 76);
    [
        ("line, horizontal", Call::DrawLine { x1, y1: 40, x2, y2: 40, mode }),
        ("box, outline", Call::DrawBox { x1, y1, x2, y2, fill: 0, mode }),
        ("box, 154 by 74", Call::DrawBox { x1, y1, x2, y2, fill: 1, mode }),
        ("box, whole screen", Call::DrawBox { x1: 0, y1: 0, x2: 159, y2: 79, fill: 1, mode }),
        ("disc, radius 39", Call::DrawCircle { x: 80, y: 40, r: 39, fill: 1, mode }),
    ]
}

fn against_clamped(name: &str, call: Call, core: Library) -> Row {
    let clamped = call.clone();
    let work = move |buffers: &mut Buffers| {
        black_box(core.answer(black_box(&clamped), buffers.lend(&clamped)));
    };
    let left = OnBytes { buffers: core.own(opened()), work };
    Row::new(format!("{name}, edge flag 1, core's flag 0"), left).with_core(
        Some(core),
        stopping(),
        move |core, buffers| {
            black_box(core.answer(black_box(&call), buffers.lend(&call)));
        },
    )
}

/// What an open with edge flag 1 leaves, with nothing owed.
fn stopping() -> Buffers {
    let mut buffers = opened();
    buffers.record[EDGE] = 1;
    buffers
}
