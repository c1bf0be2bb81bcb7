//! Lists that go through whole ranges.

mod bands;
mod bitmaps;
mod drawing;
mod edges;
mod numbers;
mod pokes;
mod records;
mod text;

pub use bands::lists as bands;
pub use bitmaps::paintings;
pub use edges::lists as edges;

use crate::list::{Lending, List, Start, Step};
use calls::Call;
use calls::layout::*;

/// All of them, one after another. Half of them start with edge flag 1: drawings that know the flag come
/// with both, other calls with either in turn.
pub fn lists() -> impl Iterator<Item = List> {
    let others = text::lists().chain(records::lists()).chain(numbers::lists()).chain(pokes::all_addresses());
    in_turn(pokes::screen_bytes().chain(bitmaps::lists()))
        .chain(edges::lists())
        .chain(bands::lists())
        .chain(drawing::lists())
        .chain(in_turn(others))
}

/// Calls in a list at most, those that all lists start with not counted: a multiple of 2, 3, 6 and 9, the
/// numbers of calls that belong together, as setting a mode, printing and flushing do.
const CALLS: usize = 126;

/// `panelrun`'s windows.
const WINDOWS: (u16, u16) = (4096, 8192);

/// A valid record with nothing marked and nothing in hand.
fn record(version: u8, screen_mode: u8, print_mode: u8) -> Vec<u8> {
    let mut record = vec![0; RECORD];
    record[GRAPHICS_BASE..][..2].copy_from_slice(&WINDOWS.0.to_le_bytes());
    record[TEXT_BASE..][..2].copy_from_slice(&WINDOWS.1.to_le_bytes());
    record[SCREEN_MODE] = screen_mode;
    record[PRINT_MODE] = print_mode;
    record[VERSION] = version;
    record
}

/// Cut a stream of steps into lists that start from this record, over bytes of changing seeds.
fn from_record(record: Vec<u8>, steps: impl Iterator<Item = Step>) -> impl Iterator<Item = List> {
    let mut steps = steps;
    let mut seed = 0;
    std::iter::from_fn(move || {
        let part: Vec<Step> = steps.by_ref().take(CALLS).collect();
        seed += 1;
        let start = Start { record: Some(record.clone()), seed, panels: PANELS };
        (!part.is_empty()).then_some(List { start, steps: part })
    })
}

/// Calls whose own marks show.
fn unmarked(calls: impl Iterator<Item = Call>) -> impl Iterator<Item = Step> {
    calls.map(|call| Step { call, lending: Lending::Unmarked })
}

/// Cut a stream of calls into lists that each start with this open, so that demand 3 is due.
fn opened(open: Call, calls: impl Iterator<Item = Call>) -> impl Iterator<Item = List> {
    after(vec![open], calls)
}

/// The same, each list starting with these calls, the first of them an open.
fn after(first: Vec<Call>, calls: impl Iterator<Item = Call>) -> impl Iterator<Item = List> {
    let mut calls = calls;
    let mut seed = 0;
    std::iter::from_fn(move || {
        let part: Vec<Call> = calls.by_ref().take(CALLS).collect();
        seed += 1;
        (!part.is_empty()).then(|| {
            let all = first.iter().cloned().chain(part);
            List { start: Start::unopened(seed), steps: all.map(Step::from).collect() }
        })
    })
}

/// An open and the sends that bring all panels level after it.
fn levelled(open: Call) -> Vec<Call> {
    let sends = (0..HEIGHT).flat_map(|_| (0..PANELS as u8).map(|number| Call::Send { number }));
    [open].into_iter().chain(sends).collect()
}

/// These lists with the edge flags in turn: calls that know no flag.
fn in_turn(lists: impl Iterator<Item = List>) -> impl Iterator<Item = List> {
    lists.zip([0, 1].into_iter().cycle()).map(|(list, edge)| with_edge(list, edge))
}

/// Each of these lists with one edge flag and then with the other: drawings that know it.
fn with_both(lists: impl Iterator<Item = List>) -> impl Iterator<Item = List> {
    lists.flat_map(|list| [0, 1].map(|edge| with_edge(list.clone(), edge)))
}

/// The list started with this edge flag.
fn with_edge(mut list: List, flag: u8) -> List {
    if let Some(record) = &mut list.start.record {
        record[EDGE] = flag;
    } else if let Some(Step { call: Call::Open { edge, .. }, .. }) = list.steps.first_mut() {
        *edge = flag;
    }
    list
}

/// `panelrun`'s open, for one version.
fn open(version: u8) -> Call {
    let (graphics_base, text_base) = WINDOWS;
    Call::Open { graphics_base, text_base, version, keys: [0; 8], edge: 0 }
}

/// Every pair of two lists.
fn pairs<A: Copy, B: Copy>(one: &[A], other: &[B]) -> Vec<(A, B)> {
    one.iter().flat_map(|a| other.iter().map(|b| (*a, *b))).collect()
}

fn bytes() -> impl Iterator<Item = u8> + Clone {
    0..=255
}
