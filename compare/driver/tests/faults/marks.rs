//! Rectangles of a record, for faults in what is marked and owed.

use calls::layout::*;

pub const EMPTY: [u16; 4] = [0; 4];

pub fn put(record: &mut [u8], place: usize, rect: [u16; 4]) {
    record[place..place + RECT].copy_from_slice(&rect.map(u16::to_le_bytes).concat());
}

pub fn is_empty(rect: [u16; 4]) -> bool {
    rect[0] >= rect[2] || rect[1] >= rect[3]
}

pub fn join(one: [u16; 4], other: [u16; 4]) -> [u16; 4] {
    if is_empty(other) {
        one
    } else if is_empty(one) {
        other
    } else {
        [one[0].min(other[0]), one[1].min(other[1]), one[2].max(other[2]), one[3].max(other[3])]
    }
}

/// What of a rectangle lies in a band; it may be empty.
pub fn part_in(rect: [u16; 4], band: usize) -> [u16; 4] {
    let top = (band * BAND) as u16;
    [rect[0], rect[1].max(top), rect[2], rect[3].min(top + BAND as u16)]
}

/// What every panel is owed becomes what it was before.
pub fn restore_owed(record: &mut [u8], before: &[u8]) {
    for place in (0..PANELS).map(owed_part) {
        record[place.clone()].copy_from_slice(&before[place]);
    }
}

/// Every panel is owed what it was before, and this rectangle by bands.
pub fn owe(record: &mut [u8], before: &[u8], rect: [u16; 4]) {
    owe_by(record, before, |band| part_in(rect, band));
}

/// Every band of every panel holds what it did before, joined with its share.
pub fn owe_by(record: &mut [u8], before: &[u8], share: impl Fn(usize) -> [u16; 4]) {
    for (panel, band) in (0..PANELS).flat_map(|panel| (0..BANDS).map(move |band| (panel, band))) {
        let place = owed(panel, band);
        put(record, place, join(four(before, place), share(band)));
    }
}
