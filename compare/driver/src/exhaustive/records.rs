//! Records and lengths around what STATE and LENT test, for every call.

use super::{bytes, from_record, open, pairs, record};
use crate::list::{Lending, List, Other, Step};
use calls::layout::*;
use calls::{Call, FontsLent, Painting};
use std::ops::Range;

pub fn lists() -> impl Iterator<Item = List> {
    let valid = full_record();
    from_record(valid.clone(), changed_bytes())
        .chain(from_record(valid.clone(), edge_flags()))
        .chain(from_record(valid.clone(), lengths()))
        .chain(from_record(valid.clone(), rects()))
        .chain(from_record(valid.clone(), bases()))
        .chain(from_record(valid.clone(), hands()))
        .chain(from_record(valid, taken()))
}

/// A rectangle in each place, another one in each, so that one changed byte can break it.
fn full_record() -> Vec<u8> {
    let mut valid = record(1, 0, 0);
    put_rect(&mut valid, DIRTY, [1, 2, 200, 100]);
    for panel in 0..PANELS {
        let by = panel as u16;
        for band in 0..BANDS {
            let (top, right) = (lines_of(band).start, 150 + by - band as u16);
            put_rect(&mut valid, owed(panel, band), [3 + by, top + 2 + by, right, top + 10 + by]);
        }
        put_rect(&mut valid, in_hand(panel), [5 + by, 6 + by, 155 - by, 75 - by]);
        valid[lines_sent(panel)] = 9 + panel as u8;
    }
    valid
}

/// The lines of a band.
fn lines_of(band: usize) -> Range<u16> {
    let first = (band * BAND) as u16;
    first..first + BAND as u16
}

fn put_rect(record: &mut [u8], place: usize, rect: [u16; 4]) {
    for (at, byte) in rect_bytes(place, rect) {
        record[at] = byte;
    }
}

fn rect_bytes(place: usize, rect: [u16; 4]) -> Vec<(usize, u8)> {
    let bytes = rect.into_iter().flat_map(u16::to_le_bytes);
    bytes.enumerate().map(|(k, byte)| (place + k, byte)).collect()
}

const BITMAP: Painting = Painting { address: 4096, x: 1, y: 1, width: 9, height: 3, mode: 4 };

/// One accepted call of each kind, a send to each panel.
fn each_call() -> Vec<Call> {
    let mut calls = vec![
        open(1),
        Call::Reset,
        Call::DrawPoint { x: 1, y: 1, mode: 1 },
        Call::DrawLine { x1: 0, y1: 0, x2: 9, y2: 5, mode: 2 },
        Call::DrawBox { x1: 0, y1: 0, x2: 9, y2: 5, fill: 1, mode: 2 },
        Call::DrawCircle { x: 9, y: 9, r: 4, fill: 0, mode: 2 },
        Call::DrawEllipse { x: 9, y: 9, rx: 4, ry: 2, fill: 1, mode: 2 },
        Call::CheckPoint { x: 3, y: 3 },
        BITMAP.by_pixels(),
        Call::Print { text: b"ab".to_vec() },
        Call::Newline,
        Call::Cls,
        Call::Flush { fonts: FontsLent::whole(vec![]) },
        Call::GetRow,
        Call::GetColumn,
        Call::SetRow { row: 2 },
        Call::SetColumn { column: 3 },
        Call::SetScreenMode { mode: 1 },
        Call::SetPrintMode { mode: 1 },
        Call::BlinkCursor,
        Call::ClearCursor,
        Call::WriteByte { address: 4100, byte: 9 },
        Call::TakeDirtyArea,
        BITMAP.by_bytes(),
    ];
    calls.extend(sends());
    calls
}

fn sends() -> [Call; PANELS] {
    [0, 1, 2, 3].map(|number| Call::Send { number })
}

fn lent(call: &Call, other: Other) -> Step {
    Step { call: call.clone(), lending: Lending::Other(other) }
}

fn changed(call: &Call, record_bytes: Vec<(usize, u8)>) -> Step {
    lent(call, Other { record_bytes, ..Other::same() })
}

/// Every record byte with every value, the calls in turn.
fn changed_bytes() -> impl Iterator<Item = Step> {
    let calls = each_call();
    (0..RECORD).flat_map(move |place| {
        let calls = calls.clone();
        bytes().map(move |byte| {
            let call = &calls[(place * 5 + byte as usize) % calls.len()];
            changed(call, vec![(place, byte)])
        })
    })
}

/// Every value of the edge flag for every call.
fn edge_flags() -> impl Iterator<Item = Step> {
    let calls = each_call().into_iter();
    calls.flat_map(|call| bytes().map(move |flag| changed(&call, vec![(EDGE, flag)])))
}

/// Wrong and right lengths for every call, those of panels for sends, also for such as name none.
fn lengths() -> impl Iterator<Item = Step> {
    let around = |right: usize| [0, 1, right - 1, right, right + 1, 2 * right];
    let lents = each_call().into_iter().flat_map(move |call| {
        let records = (0..=2 * RECORD).map(|record_len| Other { record_len, ..Other::same() });
        let memories = around(MEMORY).map(|memory_len| Other { memory_len, ..Other::same() });
        let others: Vec<Other> = records.chain(memories).collect();
        others.into_iter().map(move |other| lent(&call, other))
    });
    let panels = [0, 1, 2, 3, 4, 255].into_iter().flat_map(move |number| {
        let others = around(PANEL).map(|panel_len| Other { panel_len, ..Other::same() });
        others.map(|other| lent(&Call::Send { number }, other))
    });
    lents.chain(panels)
}

/// Rectangles with every side at its edges, those of what is owed at the edges of their band too.
fn rects() -> impl Iterator<Item = Step> {
    let edges = [0, 1, 79, 80, 81, 160, 161, 256, 257];
    let places = [DIRTY].into_iter().chain((0..PANELS).map(in_hand));
    let unbanded = places.flat_map(move |place| with_sides(place, &edges, &edges));
    unbanded.chain(panels_and_bands().into_iter().flat_map(|(panel, band)| {
        let Range { start: top, end: bottom } = lines_of(band);
        let inside = [top, top + 1, bottom - 1, bottom];
        let outside = [0, top.wrapping_sub(1), bottom + 1, 80, 81, 256];
        with_sides(owed(panel, band), &[0, 1, 159, 160, 161, 256], &[&inside[..], &outside].concat())
    }))
}

/// The rectangle at this place with each of these sides, across and down.
fn with_sides(place: usize, across: &[u16], down: &[u16]) -> impl Iterator<Item = Step> + use<> {
    let corners = pairs(across, down);
    pairs(&corners, &corners).into_iter().map(move |((left, top), (right, bottom))| {
        changed(&Call::GetRow, rect_bytes(place, [left, top, right, bottom]))
    })
}

fn panels_and_bands() -> Vec<(usize, usize)> {
    (0..PANELS).flat_map(|panel| (0..BANDS).map(move |band| (panel, band))).collect()
}

/// A send to each panel with any of the bands empty, with something in hand and with nothing.
fn taken() -> impl Iterator<Item = Step> {
    pairs(&[0, 1, 2, 3], &[[0; 4], [9, 40, 70, 41]]).into_iter().flat_map(|(panel, hand)| {
        (0..1 << BANDS).map(move |empty: u32| {
            let emptied = (0..BANDS).filter(|band| empty >> band & 1 == 1);
            let mut record_bytes = rect_bytes(in_hand(panel), hand);
            record_bytes.extend(emptied.flat_map(|band| rect_bytes(owed(panel, band), [0; 4])));
            changed(&Call::Send { number: panel as u8 }, record_bytes)
        })
    })
}

/// Bases at the ends of memory and windows that just touch or just share a byte, in the record
/// and told to open.
fn bases() -> impl Iterator<Item = Step> {
    let graphics = [0, 1, 100, 101, 4096, 8192, 63_834, 63_835, 63_934, 63_935, 63_936, 65_535];
    graphics.into_iter().flat_map(|graphics_base: u16| {
        let beside = [-1701i32, -101, -100, -99, -1, 0, 1, 99, 100, 1598, 1599, 1600, 1601];
        let near = beside.into_iter().map(move |by| graphics_base as i32 + by);
        let texts = near.chain([0, 65_434, 65_435, 65_436, 65_535]);
        texts.filter_map(|text| u16::try_from(text).ok()).flat_map(move |text_base| {
            let words = [graphics_base, text_base].map(u16::to_le_bytes);
            let record_bytes = words.concat().into_iter().enumerate().collect();
            let open = Call::Open { graphics_base, text_base, version: 0, keys: [1; 8], edge: 1 };
            [changed(&Call::GetColumn, record_bytes), lent(&open, Other::same())]
        })
    })
}

/// Every left and right of a line in hand, sent to each panel; and every top and bottom.
fn hands() -> impl Iterator<Item = Step> {
    let across = (0..160).flat_map(|left| (left + 1..=160).map(move |right| [left, left % 80, right, 80]));
    let down = (0..80).flat_map(|top| (top + 1..=80).map(move |bottom| [7, top, 130, bottom]));
    across.chain(down).flat_map(|rect| {
        let steps = sends().into_iter().enumerate();
        steps.map(move |(panel, send)| changed(&send, rect_bytes(in_hand(panel), rect)))
    })
}
