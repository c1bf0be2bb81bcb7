//! Marks around the edges of the bands, each by itself; and marks in any two bands, with sends that show which
//! goes first.

use super::{after, from_record, levelled, open, pairs, record, unmarked, with_both};
use crate::list::List;
use calls::layout::{BAND, BANDS, PANELS};
use calls::{Call, Painting};

pub fn lists() -> impl Iterator<Item = List> {
    with_both(from_record(record(1, 0, 0), unmarked(drawings())).chain(from_level()).chain(in_two_bands()))
}

/// The two lines on either side of each edge of a band.
fn rows() -> Vec<u8> {
    let edges = (0..=BANDS).map(|band| band * BAND);
    edges.flat_map(|edge| edge.saturating_sub(2)..edge + 2).map(|row| row as u8).collect()
}

/// From every such line to every other.
fn drawings() -> impl Iterator<Item = Call> {
    let ends = pairs(&rows(), &rows()).into_iter().filter(|(y1, y2)| y1 <= y2);
    ends.enumerate().flat_map(|(turn, (y1, y2))| {
        let x1 = (turn * 7 % 150) as u8;
        let (x2, mode, height) = (x1 + 9, 2, y2 - y1 + 1);
        let painting = Painting { address: 10_000, x: x1.into(), y: y1.into(), width: 10, height, mode: 4 };
        [
            Call::DrawBox { x1, y1, x2, y2, fill: 0, mode },
            Call::DrawBox { x1, y1, x2, y2, fill: 1, mode },
            Call::DrawLine { x1, y1, x2: x1, y2, mode },
            Call::DrawLine { x1, y1: y2, x2, y2: y1, mode },
            painting.by_pixels(),
            painting.by_bytes(),
        ]
    })
}

/// Some of them from level panels, which only their marks bring level again.
fn from_level() -> impl Iterator<Item = List> {
    after(levelled(open(1)), drawings().step_by(17))
}

/// So many sends to each panel after two marks of two lines: one panel comes level, one stays behind.
const SENDS: [usize; PANELS] = [5, 3, 1, 0];

fn in_two_bands() -> impl Iterator<Item = List> {
    let bands: Vec<u8> = (0..BANDS as u8).collect();
    let calls = pairs(&bands, &bands).into_iter().flat_map(|(one, other)| {
        let sends = (0..).zip(SENDS).flat_map(|(number, count)| vec![Call::Send { number }; count]);
        [two_lines(one, 3), two_lines(other, 90)].into_iter().chain(sends)
    });
    after(levelled(open(1)), calls)
}

fn two_lines(band: u8, x1: u8) -> Call {
    let y1 = band * BAND as u8 + 7;
    Call::DrawBox { x1, y1, x2: x1 + 20, y2: y1 + 1, fill: 1, mode: 2 }
}
