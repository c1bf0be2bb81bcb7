//! What goes to a panel, in lines and bytes, for some things that a unit does: with one rectangle owed for the
//! whole screen, as before change request 6, and with one for each band.

use crate::core_side::Answering;
use crate::judge::Reckoner;
use calls::layout::BANDS;
use calls::{Buffers, Call, FontsLent, Painting};
use std::iter::repeat_n;

/// The panel that is sent to; the others are owed the same.
const SEND: Call = Call::Send { number: 0 };

const OPEN: Call = Call::Open { graphics_base: 4096, text_base: 8192, version: 1, keys: [0; 8], edge: 0 };

/// The first and the last pixel of a line that was sent.
type Line = [u32; 2];

#[derive(Debug, Default, Clone, Copy, PartialEq, Eq)]
pub struct Sent {
    pub lines: u32,
    /// Those that hold a pixel of the lines.
    pub bytes: u32,
}

impl Sent {
    fn add(&mut self, [first, last]: Line) {
        self.lines += 1;
        self.bytes += last / 8 - first / 8 + 1;
    }
}

/// Calls from a level panel, which is then sent to until it is idle.
pub struct Case {
    pub name: &'static str,
    /// Made before, and sent too; that is not counted.
    first: Vec<Call>,
    calls: Vec<Call>,
}

impl Case {
    /// As it is reckoned from the calls alone, with so many bands.
    pub fn reckoned<const N: usize>(&self) -> Sent {
        let mut screen = Buffers::zero();
        let mut reckoner = Reckoner::<N>::default();
        self.sent(|call| {
            let before = screen.record.clone();
            let answer = model::answer(call, screen.lend(call));
            assert!(answer.accepted(), "{}: {call:?} is refused", self.name);
            let line = reckoner.next_line(0).filter(|_| *call == SEND);
            reckoner.take(call, &before, &screen.memory);
            line.map(|[_, first, last]| [first, last])
        })
    }

    /// As the sends of this side answer.
    pub fn answered(&self, side: Answering) -> Sent {
        let mut screen = Buffers::zero();
        self.sent(|call| {
            let answer = side(call, screen.lend(call)).expect("all these calls");
            assert!(answer.accepted(), "{}: {call:?} is refused", self.name);
            let [sent, _, left, right] = answer.numbers;
            (sent == 1).then(|| [left, right - 1])
        })
    }

    /// Make all calls one by one; `make` tells the line that one has sent.
    fn sent(&self, mut make: impl FnMut(&Call) -> Option<Line>) -> Sent {
        for call in [OPEN].iter().chain(&self.first) {
            make(call);
        }
        while make(&SEND).is_some() {}
        let mut sent = Sent::default();
        self.calls.iter().filter_map(&mut make).for_each(|line| sent.add(line));
        while let Some(line) = make(&SEND) {
            sent.add(line);
        }
        sent
    }
}

pub fn cases() -> Vec<Case> {
    let case = |name, calls| Case { name, first: vec![], calls };
    vec![
        case("cursor in row 0 at the left, clock in row 4 at the right", vec![Call::BlinkCursor, clock(96)]),
        case("cursor in row 0, clock in row 4 below it", vec![Call::BlinkCursor, clock(0)]),
        case("cue by bitmaps in rows 3 and 4, 18 and 10 cells", cue_by_bitmaps()),
        case(
            "the same, and the cursor in row 0",
            [Call::BlinkCursor].into_iter().chain(cue_by_bitmaps()).collect(),
        ),
        case("cue by print and flush", cue_by_flush()),
        case("flush, 40 sends, flush", flushed_twice()),
        Case {
            name: "newline that scrolls in Graph",
            first: last_row_of_graph(),
            calls: vec![Call::Newline],
        },
        case("line from corner to corner", vec![Call::DrawLine { x1: 0, y1: 0, x2: 159, y2: 79, mode: 1 }]),
    ]
}

/// So many cells of a row of text, shown as a bitmap.
fn cells(row: u8, x: i32, count: u8) -> Call {
    let y = 16 * row as i32;
    Painting { address: 20_000, x, y, width: 8 * count, height: 16, mode: 2 }.by_bytes()
}

/// Hours, minutes and seconds in the last row.
fn clock(x: i32) -> Call {
    cells(4, x, 8)
}

fn cue_by_bitmaps() -> Vec<Call> {
    vec![cells(3, 8, 18), cells(4, 40, 10)]
}

fn cue_by_flush() -> Vec<Call> {
    let print = |count| Call::Print { text: vec![b'a'; count] };
    vec![Call::SetRow { row: 3 }, print(18), Call::Newline, print(10), flush()]
}

fn flush() -> Call {
    Call::Flush { fonts: FontsLent::whole(vec![]) }
}

fn flushed_twice() -> Vec<Call> {
    [flush()].into_iter().chain(repeat_n(SEND, 40)).chain([flush()]).collect()
}

fn last_row_of_graph() -> Vec<Call> {
    vec![Call::SetScreenMode { mode: 1 }, Call::SetRow { row: 4 }, Call::SetColumn { column: 5 }]
}

/// The table of all cases.
pub fn table() -> String {
    let mut table = format!("{:<58}{:>14}{:>16}\n", "", "one band", "five bands");
    table += &format!("{:<58}{:>7}{:>7}{:>9}{:>7}\n", "", "lines", "bytes", "lines", "bytes");
    for case in cases() {
        let (one, five) = (case.reckoned::<1>(), case.reckoned::<BANDS>());
        table +=
            &format!("{:<58}{:>7}{:>7}{:>9}{:>7}\n", case.name, one.lines, one.bytes, five.lines, five.bytes);
    }
    table
}
