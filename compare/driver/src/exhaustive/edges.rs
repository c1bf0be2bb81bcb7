//! Drawings that know the edge flag, at the edges and around the corners of the glass, with both flags; and
//! what open, reset and the others make of the flag.

use super::{after, from_record, levelled, open, opened, pairs, record, unmarked, with_both};
use crate::list::{List, Step};
use calls::Call;

const MODES: [u8; 4] = [0, 1, 2, 3];

pub fn lists() -> impl Iterator<Item = List> {
    with_both(drawings().chain(from_level()).chain(flags()).chain(resets()))
}

/// Each with its own mark.
fn drawings() -> impl Iterator<Item = List> {
    from_record(record(1, 0, 0), unmarked(horizontals().chain(boxes()).chain(discs())))
}

/// Some of them from level panels, which only their marks bring level again.
fn from_level() -> impl Iterator<Item = List> {
    let every = |step: usize, calls: Vec<Call>| calls.into_iter().step_by(step);
    let some = every(53, horizontals().collect()).chain(every(61, boxes().collect()));
    after(levelled(open(1)), some.chain(every(61, discs().collect())))
}

/// Lines between all columns around the ends of a byte, of the glass and of the coordinates.
fn horizontals() -> impl Iterator<Item = Call> {
    let columns: Vec<u8> = [0, 1, 6, 7, 8, 9].into_iter().chain(151..=168).chain([254, 255]).collect();
    let ends = pairs(&columns, &columns);
    let rows = pairs(&[0, 1, 77, 78, 79, 80, 81, 82, 254, 255], &MODES);
    pairs(&ends, &rows).into_iter().map(|((x1, x2), (y, mode))| Call::DrawLine { x1, y1: y, x2, y2: y, mode })
}

/// Columns and rows around each corner of the glass.
fn corners() -> [([u8; 5], [u8; 5]); 4] {
    let (left, right) = ([0, 1, 2, 7, 8], [157, 158, 159, 160, 161]);
    let (top, bottom) = ([0, 1, 2, 3, 4], [77, 78, 79, 80, 81]);
    [(left, top), (right, top), (left, bottom), (right, bottom)]
}

/// Between all places around a corner, and from each of these to the far ends.
fn boxes() -> impl Iterator<Item = Call> {
    corners().into_iter().flat_map(|(columns, rows)| {
        let places = pairs(&columns, &rows);
        let far = [(0, 0), (159, 79), (160, 80), (255, 0), (0, 255), (255, 255)];
        let ends = [pairs(&places, &places), pairs(&places, &far)].concat();
        let drawn = pairs(&ends, &pairs(&[0, 1], &MODES)).into_iter();
        drawn.map(|(((x1, y1), (x2, y2)), (fill, mode))| Call::DrawBox { x1, y1, x2, y2, fill, mode })
    })
}

/// Around all places around a corner, and at the far ends; the larger ones wrap.
fn discs() -> impl Iterator<Item = Call> {
    let far = ([163, 170, 200, 254, 255], [83, 90, 120, 254, 255]);
    corners().into_iter().chain([far]).flat_map(|(columns, rows)| {
        let radii = pairs(&[0, 1, 2, 5, 8, 55, 127], &[0, 1, 2, 5, 8, 55, 127]);
        let drawn = pairs(&pairs(&columns, &rows), &radii).into_iter().enumerate();
        drawn.flat_map(|(turn, ((x, y), (rx, ry)))| {
            let ellipses = MODES.map(|mode| Call::DrawEllipse { x, y, rx, ry, fill: 1, mode });
            let circle = Call::DrawCircle { x, y, r: rx, fill: 1, mode: turn as u8 % 4 };
            ellipses.into_iter().chain((rx == ry).then_some(circle))
        })
    })
}

/// A line and a box that are another picture with either flag.
const SHOWING: [Call; 2] = [
    Call::DrawLine { x1: 150, y1: 80, x2: 170, y2: 80, mode: 2 },
    Call::DrawBox { x1: 150, y1: 78, x2: 170, y2: 80, fill: 1, mode: 2 },
];

/// Every value told to open, with windows that fit and such that don't, and with every sort of version; then
/// what the record holds shows.
fn flags() -> impl Iterator<Item = List> {
    let calls = super::bytes().flat_map(|edge| {
        let cases = pairs(&[8192, 4096], &[0, 1, 2]).into_iter();
        let opens = cases.map(move |(text_base, version)| Call::Open {
            graphics_base: 4096,
            text_base,
            version,
            keys: [0; 8],
            edge,
        });
        opens.flat_map(|open| [open].into_iter().chain(SHOWING))
    });
    from_record(record(1, 0, 0), calls.map(Step::from))
}

/// Every call that writes fields of the record leaves the flag, reset before all.
fn resets() -> impl Iterator<Item = List> {
    let calls = [
        Call::Reset,
        Call::Cls,
        Call::SetScreenMode { mode: 1 },
        Call::Reset,
        Call::SetPrintMode { mode: 2 },
        Call::Send { number: 3 },
        Call::TakeDirtyArea,
    ];
    opened(open(1), calls.into_iter().flat_map(|call| [call].into_iter().chain(SHOWING)))
}
