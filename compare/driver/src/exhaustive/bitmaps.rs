//! Bitmaps, each by both painters from the same bytes: over the edges of the glass and of a byte, from
//! sources all over memory and over the screen.

use super::{WINDOWS, bytes, from_record, pairs, record, unmarked};
use crate::list::List;
use calls::{Call, Painting};
use std::iter::once;

const MODES: [u8; 5] = [0, 1, 2, 3, 4];

pub fn lists() -> impl Iterator<Item = List> {
    [Painting::by_pixels, Painting::by_bytes].into_iter().flat_map(|painter: fn(Painting) -> Call| {
        let afresh = over_screen().flat_map(move |modes| once(FRESH.by_pixels()).chain(modes.map(painter)));
        from_record(record(1, 0, 0), unmarked(others().map(painter)))
            .chain(from_record(record(1, 0, 0), unmarked(afresh)))
    })
}

/// What each painter is told in these lists.
pub fn paintings() -> impl Iterator<Item = Painting> {
    others().chain(over_screen().flatten())
}

fn others() -> impl Iterator<Item = Painting> {
    edges().chain(ends_of_memory()).chain(shifts()).chain(large())
}

/// The whole screen from bytes elsewhere: paintings of the screen by itself leave less and less of it.
const FRESH: Painting = Painting { address: 20_000, x: 0, y: 0, width: 160, height: 80, mode: 0 };

/// Another source for each turn, apart from screen and text, for any size.
fn apart(turn: usize) -> u16 {
    (10_000 + turn * 67 % 47_000) as u16
}

/// Over the left, right, upper and lower edge.
fn edges() -> impl Iterator<Item = Painting> {
    let columns: Vec<i32> = (-26..=18).chain(140..=162).collect();
    let rows = [-3, -1, 0, 77, 79, 80];
    pairs(&columns, &rows).into_iter().flat_map(|(x, y)| {
        let address = WINDOWS.0 + 8 * (x & 127) as u16;
        let cases = pairs(&[1, 7, 8, 9, 16, 17, 25], &[0, 1, 2, 3, 4, 5]).into_iter();
        cases.map(move |(width, mode)| Painting { address, x, y, width, height: 3, mode })
    })
}

/// Sources that end at the end of memory and just beside it, for every width.
fn ends_of_memory() -> impl Iterator<Item = Painting> {
    bytes().flat_map(|width| {
        pairs(&[0, 1, 2, 80, 255], &[-1, 0, 1]).into_iter().map(move |(height, beside)| {
            let size = Painting::source_bytes(width, height) as i32;
            let address = (65_536 - size + beside).clamp(0, 65_535) as u16;
            Painting { address, x: 3, y: 5, width, height, mode: 4 }
        })
    })
}

/// Two lines at every place in a byte: at the left edge, cut by it, and cut by the right one. Of every
/// width up to two bytes and a pixel, in every mode.
fn shifts() -> impl Iterator<Item = Painting> {
    let columns: Vec<i32> = (-8..=7).chain(152..=159).collect();
    let widths: Vec<u8> = (1..=17).collect();
    let cases = pairs(&pairs(&columns, &widths), &MODES);
    cases.into_iter().enumerate().map(|(turn, ((x, width), mode))| {
        let y = [0, 1, 40, 78][turn % 4];
        Painting { address: apart(turn), x, y, width, height: 2, mode }
    })
}

/// As large as the glass and larger, at its left upper corner.
fn large() -> impl Iterator<Item = Painting> {
    let sizes = pairs(&[159, 160, 161, 255], &[80, 81, 255]);
    let columns: Vec<i32> = (-9..=9).collect();
    let places = pairs(&columns, &[-1, 0, 1]);
    let cases = pairs(&pairs(&sizes, &places), &MODES);
    cases.into_iter().enumerate().map(|(turn, (((width, height), (x, y)), mode))| {
        let address = apart(turn);
        Painting { address, x, y, width, height, mode }
    })
}

/// Sources over the screen, before it and behind it, which mostly share bytes with what is painted. In
/// every mode, those first that keep most of the screen.
fn over_screen() -> impl Iterator<Item = [Painting; 5]> {
    let sizes = [(255, 80), (255, 255), (160, 80), (161, 81), (64, 64), (17, 80), (9, 5), (1, 80)];
    let places = [(0, 0), (1, 0), (0, 1), (-1, -1), (5, 5), (8, 5), (-9, -3)];
    sizes.into_iter().flat_map(move |(width, height)| {
        let starts = starts(Painting::source_bytes(width, height));
        pairs(&starts, &places).into_iter().map(move |(start, (x, y))| {
            let address = (WINDOWS.0 as i32 + start) as u16;
            [4, 2, 0, 1, 3].map(|mode| Painting { address, x, y, width, height, mode })
        })
    })
}

/// Where sources of so many bytes start, from the screen's start: around it, around a line, five lines
/// and the screen before and behind it; and such that they end around it. As far as memory reaches.
fn starts(bytes: usize) -> Vec<i32> {
    let centres = [-1600, -100, -20, -1, 1, 20, 100, 1600, -(bytes as i32)];
    let around = pairs(&centres, &[-2, -1, 0, 1, 2]).into_iter().map(|(centre, beside)| centre + beside);
    let mut starts: Vec<i32> = around.filter(|start| WINDOWS.0 as i32 + start >= 0).collect();
    starts.sort();
    starts.dedup();
    starts
}
