//! Change request 5 by its own words: the edge flag, which open takes, the record keeps and reset leaves.

use calls::layout::*;
use calls::{Answer, Buffers, Call};

const OPEN: Call = Call::Open { graphics_base: 4096, text_base: 8192, version: 1, keys: [0; 8], edge: 1 };

fn called(buffers: &mut Buffers, call: Call) -> Answer {
    model::answer(&call, buffers.lend(&call))
}

fn opened(edge: u8) -> Buffers {
    let mut buffers = Buffers::zero();
    let open = Call::Open { graphics_base: 4096, text_base: 8192, version: 1, keys: [0; 8], edge };
    assert!(called(&mut buffers, open).accepted());
    buffers
}

#[test]
fn open_keeps_it_in_the_last_byte() {
    for edge in [0, 1] {
        assert_eq!(opened(edge).record.last(), Some(&edge));
    }
}

/// LENT, then WINDOW, then VALUE.
#[test]
fn other_values_are_refused_at_open() {
    let mut buffers = opened(1);
    let before = buffers.clone();
    for edge in 2..=255 {
        for (text_base, version, code) in [(8192, 1, 4), (8192, 2, 4), (4096, 1, 3)] {
            let open = Call::Open { graphics_base: 4096, text_base, version, keys: [0; 8], edge };
            assert_eq!(called(&mut buffers, open), Answer { code, numbers: [0; 4] }, "{edge}");
            assert!(buffers == before, "{edge}");
        }
    }
    let open = Call::Open { graphics_base: 4096, text_base: 8192, version: 2, keys: [0; 8], edge: 1 };
    assert_eq!(called(&mut buffers, open).code, 4);
    buffers.record.pop();
    let open = Call::Open { graphics_base: 4096, text_base: 4096, version: 2, keys: [0; 8], edge: 2 };
    assert_eq!(called(&mut buffers, open).code, 1);
}

#[test]
fn other_values_are_state_later() {
    for byte in 0..=255 {
        let mut buffers = opened(0);
        buffers.record[EDGE] = byte;
        let code = if byte > 1 { 2 } else { 0 };
        for call in [Call::GetRow, Call::Reset, Call::Cls, Call::Send { number: 1 }] {
            assert_eq!(called(&mut buffers, call).code, code, "{byte}");
            assert_eq!(buffers.record[EDGE], byte);
        }
        assert!(called(&mut buffers, OPEN).accepted());
        assert_eq!(buffers.record[EDGE], 1);
    }
}

/// With the cursor on its last cell, where it is wider than the glass.
#[test]
fn the_cursor_is_the_same_under_both() {
    let [clamp, stop] = [0, 1].map(|edge| {
        let mut buffers = opened(edge);
        buffers.memory[8192 + CELLS - 1] = 200;
        for call in [Call::SetRow { row: 4 }, Call::SetColumn { column: 19 }, Call::BlinkCursor] {
            assert!(called(&mut buffers, call).accepted());
        }
        assert_eq!(four(&buffers.record, DIRTY), [152, 64, 168, 80]);
        buffers
    });
    assert!(clamp.memory == stop.memory && clamp.record[..EDGE] == stop.record[..EDGE]);
}
