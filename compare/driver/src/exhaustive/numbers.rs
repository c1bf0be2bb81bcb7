//! Every number that a call can be told where it is one byte, and points checked all over the glass and
//! beside it.

use super::{bytes, from_record, record};
use crate::list::{List, Step};
use calls::{Call, Painting};

pub fn lists() -> impl Iterator<Item = List> {
    let told = told().map(Step::from);
    let checked = checked_points().map(Step::from);
    from_record(record(1, 0, 0), told).chain(from_record(record(1, 0, 0), checked))
}

/// Every mode, version, flag, row, column and panel's number, listed or not.
fn told() -> impl Iterator<Item = Call> {
    bytes().flat_map(|number| {
        let mut calls = vec![
            Call::SetRow { row: number },
            Call::SetColumn { column: number },
            Call::SetScreenMode { mode: number },
            Call::DrawPoint { x: 5, y: 5, mode: number },
            Call::DrawLine { x1: 0, y1: 0, x2: 9, y2: 5, mode: number },
            Call::DrawBox { x1: 0, y1: 0, x2: 9, y2: 5, fill: 0, mode: number },
            Call::DrawBox { x1: 0, y1: 0, x2: 9, y2: 5, fill: number, mode: 2 },
            Call::DrawBox { x1: 0, y1: 0, x2: 9, y2: 5, fill: number, mode: number },
            Call::DrawCircle { x: 9, y: 9, r: 0, fill: 1, mode: number },
            Call::DrawCircle { x: 9, y: 9, r: 0, fill: number, mode: 1 },
            Call::DrawCircle { x: 9, y: 9, r: number, fill: 0, mode: 3 },
            Call::DrawCircle { x: 9, y: 9, r: number, fill: 1, mode: 3 },
            Call::DrawEllipse { x: 9, y: 9, rx: 4, ry: 3, fill: number, mode: 2 },
            Call::DrawEllipse { x: 9, y: 9, rx: 4, ry: 3, fill: 1, mode: number },
            Call::DrawEllipse { x: 9, y: 9, rx: 0, ry: number, fill: 1, mode: 1 },
            Call::DrawEllipse { x: 9, y: 9, rx: number, ry: 0, fill: 0, mode: 1 },
            Call::Send { number },
            Call::Open { graphics_base: 0, text_base: 1600, version: number, keys: [7; 8], edge: 1 },
            Call::Open { graphics_base: 0, text_base: 1599, version: number, keys: [7; 8], edge: number },
        ];
        for (address, width) in [(4096, 0), (4096, 9), (65_535, 9)] {
            let painting = Painting { address, x: 1, y: 1, width, height: 3, mode: number };
            calls.extend([painting.by_pixels(), painting.by_bytes()]);
        }
        for from in 0..3 {
            calls.extend([Call::SetPrintMode { mode: from }, Call::SetPrintMode { mode: number }]);
        }
        calls
    })
}

fn checked_points() -> impl Iterator<Item = Call> {
    let near = (-2..=82).flat_map(|y| (-2..=162).map(move |x| (x, y)));
    let far = [i32::MIN, i32::MIN + 5, -256, 255, 256, 65_536 + 5, i32::MAX - 5, i32::MAX];
    let beside = far.into_iter().flat_map(|n| [(n, 5), (5, n), (n, n)]);
    near.chain(beside).map(|(x, y)| Call::CheckPoint { x, y })
}
