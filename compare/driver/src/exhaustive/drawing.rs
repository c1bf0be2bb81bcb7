//! Points, lines, boxes and ellipses over the edges of the glass and of a byte.

use super::{bytes, from_record, in_turn, open, opened, pairs, record, unmarked, with_both};
use crate::list::List;
use calls::Call;

const EDGES: [u8; 11] = [0, 1, 7, 8, 79, 80, 127, 128, 159, 160, 255];
const MODES: [u8; 4] = [0, 1, 2, 3];

pub fn lists() -> impl Iterator<Item = List> {
    in_turn(shown(points()))
        .chain(in_turn(shown(lines().filter(|line| !is_horizontal(line)))))
        .chain(with_both(shown(lines().filter(is_horizontal))))
        .chain(with_both(shown(boxes())))
        .chain(in_turn(shown(ellipses(0))))
        .chain(with_both(shown(ellipses(1))))
        .chain(in_turn(shown(circles(0))))
        .chain(with_both(shown(circles(1))))
        .chain(with_both(with_sends()))
}

/// Each with its own mark.
fn shown(calls: impl Iterator<Item = Call>) -> impl Iterator<Item = List> {
    from_record(record(1, 0, 0), unmarked(calls))
}

fn is_horizontal(call: &Call) -> bool {
    matches!(call, Call::DrawLine { y1, y2, .. } if y1 == y2)
}

fn all_points() -> impl Iterator<Item = (u8, u8)> {
    bytes().flat_map(|y| bytes().map(move |x| (x, y)))
}

/// Every point in every mode, and in the first unlisted one.
fn points() -> impl Iterator<Item = Call> {
    (0..=4).flat_map(|mode| all_points().map(move |(x, y)| Call::DrawPoint { x, y, mode }))
}

/// From each corner of the coordinates to every end in every mode, and in Xor from two places of
/// the glass.
fn lines() -> impl Iterator<Item = Call> {
    let corners = pairs(&[(0, 0), (255, 0), (0, 255), (255, 255)], &MODES);
    let starts = corners.into_iter().chain([((159, 79), 2), ((70, 33), 2)]);
    starts.flat_map(|((x1, y1), mode)| {
        all_points().map(move |(x2, y2)| Call::DrawLine { x1, y1, x2, y2, mode })
    })
}

/// All boxes over the edge coordinates.
fn boxes() -> impl Iterator<Item = Call> {
    let corners = pairs(&EDGES, &EDGES);
    pairs(&corners, &corners).into_iter().flat_map(|((x1, y1), (x2, y2))| {
        pairs(&[0, 1], &MODES).into_iter().map(move |(fill, mode)| Call::DrawBox {
            x1,
            y1,
            x2,
            y2,
            fill,
            mode,
        })
    })
}

/// Centres on the glass, on and beyond its last pixel, and at both ends of the coordinates.
const CENTRES: [(u8, u8); 5] = [(0, 0), (80, 40), (159, 79), (160, 80), (255, 255)];

/// All radii, filled or not, in every mode, around each of the centres, and around all edge centres in
/// turn.
fn ellipses(fill: u8) -> impl Iterator<Item = Call> {
    let edges = pairs(&EDGES, &EDGES);
    let mut turn = 0;
    (0..=127).flat_map(|rx| (0..=127).map(move |ry| (rx, ry))).flat_map(move |(rx, ry)| {
        let mut calls = vec![];
        for mode in MODES {
            turn = (turn + 37) % edges.len();
            for (x, y) in CENTRES.into_iter().chain([edges[turn]]) {
                calls.push(Call::DrawEllipse { x, y, rx, ry, fill, mode });
            }
        }
        calls
    })
}

/// All circles, filled or not, around all edge centres, and the first refused radius.
fn circles(fill: u8) -> impl Iterator<Item = Call> {
    (0..=128).flat_map(move |r| {
        let centres = pairs(&EDGES, &EDGES).into_iter();
        centres.map(move |(x, y)| Call::DrawCircle { x, y, r, fill, mode: (x ^ y ^ r) % 4 })
    })
}

/// Which panel polls, in turn: each at another pace.
const POLLS: [u8; 8] = [0, 1, 0, 2, 0, 1, 0, 3];

/// Lists from an open, with sends to all panels between drawings over the edges.
fn with_sends() -> impl Iterator<Item = List> {
    let corners = pairs(&EDGES, &EDGES);
    let calls = corners.into_iter().flat_map(|(x, y)| {
        pairs(&[0, 5, 127], &MODES).into_iter().flat_map(move |(r, mode)| {
            let line = Call::DrawLine { x1: x, y1: y, x2: y, y2: x, mode };
            let circle = Call::DrawCircle { x, y, r, fill: mode % 2, mode };
            let polls = POLLS.into_iter().cycle().map(move |panel| (panel + mode) % 4);
            let sends = polls.map(|number| Call::Send { number }).take((x ^ y) as usize % 90);
            [line, circle].into_iter().chain(sends)
        })
    });
    opened(open(1), calls)
}
