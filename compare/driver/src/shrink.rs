//! The shortest list that shows a difference: calls are left out and numbers made smaller as
//! long as a difference stays.

use crate::judge::{Difference, Judge};
use crate::list::{Lending, List, Start};
use crate::tally::Tally;
use calls::layout::*;
use calls::{Call, FontsLent};
use std::ops::Range;

/// A list that differs, no longer than the given one, and its difference. `None` if it doesn't
/// differ. The judge is one that compares memory whole after every call.
pub fn shrink(list: &List, judge: &mut Judge) -> Option<(List, Difference)> {
    let mut differs = |list: &List| judge.judge(list, &mut Tally::default()).err();
    let mut difference = differs(list)?;
    let mut list = list.clone();
    list.steps.truncate(difference.place + 1);
    loop {
        let mut candidates = shorter(&list).into_iter().chain(simpler(&list));
        match candidates.find_map(|candidate| differs(&candidate).map(|found| (candidate, found))) {
            Some(smaller) => (list, difference) = smaller,
            None => return Some((list, difference)),
        }
    }
}

/// Without some of the steps. The first call of a list that starts unopened stays.
fn shorter(list: &List) -> Vec<List> {
    let first = if list.start.record.is_none() { 1 } else { 0 };
    let without = |part: Range<usize>| {
        let mut shorter = list.clone();
        shorter.steps.drain(part);
        shorter
    };
    parts(first..list.steps.len()).into_iter().map(without).collect()
}

/// What can be left out: large parts first, then one by one.
pub fn parts(all: Range<usize>) -> Vec<Range<usize>> {
    let mut parts = vec![];
    let mut size = all.len();
    while size > 0 {
        parts.extend(all.clone().step_by(size).map(|start| start..(start + size).min(all.end)));
        size /= 2;
    }
    parts
}

/// The same steps with one thing smaller.
fn simpler(list: &List) -> Vec<List> {
    let starts = simpler_starts(&list.start).into_iter();
    let mut lists: Vec<List> = starts.map(|start| List { start, steps: list.steps.clone() }).collect();
    for (place, step) in list.steps.iter().enumerate() {
        if step.lending != Lending::Own {
            let mut simpler = list.clone();
            simpler.steps[place].lending = Lending::Own;
            lists.push(simpler);
        }
        let first_open = place == 0 && list.start.record.is_none();
        let calls = if first_open { plain_opens(&step.call) } else { smaller_calls(&step.call) };
        for call in calls {
            let mut simpler = list.clone();
            simpler.steps[place].call = call;
            lists.push(simpler);
        }
    }
    lists
}

/// Zeros for bytes of a seed; all panels; `panelrun`'s windows and zeros in the fields of a record.
fn simpler_starts(start: &Start) -> Vec<Start> {
    let mut starts = vec![Start { seed: 0, ..start.clone() }, Start { panels: PANELS, ..start.clone() }];
    if let Some(record) = &start.record {
        let simpler = simpler_records(record).into_iter();
        starts.extend(simpler.map(|record| Start { record: Some(record), ..*start }));
    }
    starts.retain(|simpler| simpler != start);
    starts
}

/// The record with one field as in a plain one.
pub fn simpler_records(record: &[u8]) -> Vec<Vec<u8>> {
    let mut plain = [0; RECORD];
    plain[GRAPHICS_BASE..ROW].copy_from_slice(&[0, 16, 0, 32]);
    let simpler = |field: Range<usize>| {
        let mut simpler = record.to_vec();
        simpler[field.clone()].copy_from_slice(&plain[field]);
        simpler
    };
    record_fields().into_iter().map(simpler).collect()
}

/// The fields of the record; the two bases are one.
fn record_fields() -> Vec<Range<usize>> {
    let mut starts =
        vec![0, ROW, COLUMN, SCREEN_MODE, PRINT_MODE, CURSOR, VERSION, DIRTY, KEYS, FLAGS, EDGE, RECORD];
    for panel in 0..PANELS {
        starts.extend((0..BANDS).map(|band| owed(panel, band)));
        starts.extend([in_hand(panel), lines_sent(panel)]);
    }
    starts.sort();
    starts.windows(2).map(|two| two[0]..two[1]).collect()
}

/// The first call of an unopened list stays an accepted open: with `panelrun`'s windows, or its own without
/// keys, each with edge flag 0 or its own.
fn plain_opens(call: &Call) -> Vec<Call> {
    let Call::Open { graphics_base, text_base, version, edge, .. } = *call else { return vec![] };
    let opens = [(4096, 8192, 1), (graphics_base, text_base, version)].into_iter().flat_map(
        |(graphics_base, text_base, version)| {
            [0, edge].map(|edge| Call::Open { graphics_base, text_base, version, keys: [0; 8], edge })
        },
    );
    opens.filter(|open| open != call).collect()
}

/// Values that count as smaller.
pub trait Smaller: Sized {
    fn smaller(&self) -> Vec<Self>;
}

macro_rules! smaller_numbers {
    ($($number:ty),*) => {$(
        impl Smaller for $number {
            fn smaller(&self) -> Vec<Self> {
                let mut values = vec![0];
                let mut step = *self / 2;
                while step != 0 {
                    values.push(*self - step);
                    step /= 4;
                }
                values.push(if *self > 0 { *self - 1 } else { *self });
                values.retain(|value| value != self);
                values
            }
        }
    )*};
}

smaller_numbers!(u8, u16, i32, usize);

impl Smaller for Vec<u8> {
    fn smaller(&self) -> Vec<Self> {
        let without = |part: Range<usize>| [&self[..part.start], &self[part.end..]].concat();
        parts(0..self.len()).into_iter().map(without).collect()
    }
}

impl Smaller for [u32; 8] {
    fn smaller(&self) -> Vec<Self> {
        if *self == [0; 8] { vec![] } else { vec![[0; 8]] }
    }
}

/// Whole fonts and no extra list, or a shorter extra list.
impl Smaller for FontsLent {
    fn smaller(&self) -> Vec<Self> {
        let whole = Self::whole(vec![]);
        let lists = self.extra_list.smaller().into_iter();
        let shorter = lists.map(|extra_list| Self { extra_list, ..self.clone() });
        [whole].into_iter().chain(shorter).filter(|simpler| simpler != self).collect()
    }
}

macro_rules! smaller_fields {
    ($call:expr, $($variant:ident { $($field:ident),* })*) => {
        match $call {
            $(Call::$variant { $($field),* } => {
                let mut smaller = vec![];
                $(for value in $field.smaller() {
                    let mut call = $call.clone();
                    if let Call::$variant { $field, .. } = &mut call {
                        *$field = value;
                    }
                    smaller.push(call);
                })*
                smaller
            })*
            _ => vec![],
        }
    };
}

pub fn smaller_calls(call: &Call) -> Vec<Call> {
    smaller_fields!(call,
        Open { graphics_base, text_base, version, keys, edge }
        DrawPoint { x, y, mode }
        DrawLine { x1, y1, x2, y2, mode }
        DrawBox { x1, y1, x2, y2, fill, mode }
        DrawCircle { x, y, r, fill, mode }
        DrawEllipse { x, y, rx, ry, fill, mode }
        CheckPoint { x, y }
        PaintBitmap { address, x, y, width, height, mode }
        Print { text }
        Flush { fonts }
        SetRow { row }
        SetColumn { column }
        SetScreenMode { mode }
        SetPrintMode { mode }
        WriteByte { address, byte }
        Send { number }
        PaintBitmapByBytes { address, x, y, width, height, mode }
    )
}
