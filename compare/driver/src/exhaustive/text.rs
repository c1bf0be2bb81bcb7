//! Texts at every cell, cursors at every cell, and every code that flush can show.

use super::{from_record, open, opened, pairs, record};
use crate::list::{List, Step};
use calls::{Call, FontsLent};
use reference::in_gap;

pub fn lists() -> impl Iterator<Item = List> {
    prints().chain(cursors()).chain(codes()).chain(row_ends())
}

/// What is printed at every cell: single bytes, bytes from 128 on alone, first, in the middle.
const TEXTS: [&[u8]; 14] = [
    b"",
    b"a",
    b"\x00",
    b"\x7f",
    b"\x80",
    b"\xff",
    b"\xb0\xa1",
    b"\xb0\x00",
    b"\xff\xff\xff",
    b"a\xb0",
    b"a\xb0\xa1",
    b"ab\xb0\xa1c\xb0",
    b"the quick brown fox jumps over",
    b"\xb0\xa1\xb0\xa2\xb0\xa3\xb0\xa4\xb0\xa5\xb0\xa6\xb0\xa7\xb0\xa8\xb0\xa9\xb0\xaa\xb0\xab\xb0\xac",
];

fn cells() -> impl Iterator<Item = (u8, u8)> {
    (0..5).flat_map(|row| (0..20).map(move |column| (row, column)))
}

fn go_to((row, column): (u8, u8)) -> [Call; 2] {
    [Call::SetRow { row }, Call::SetColumn { column }]
}

/// Every text at every cell, then a newline there, in every screen and print mode.
fn prints() -> impl Iterator<Item = List> {
    pairs(&[0, 1], &[0, 1, 2]).into_iter().flat_map(|(screen_mode, print_mode)| {
        let calls = cells().flat_map(|cell| {
            TEXTS.into_iter().flat_map(move |text| {
                let print = Call::Print { text: text.to_vec() };
                go_to(cell).into_iter().chain([print, Call::GetRow, Call::GetColumn, Call::Newline])
            })
        });
        from_record(record(1, screen_mode, print_mode), calls.map(Step::from))
    })
}

/// The cursor on and off at every cell over a half and a full code, also cleared, also moved
/// between, also in Graph.
fn cursors() -> impl Iterator<Item = List> {
    [0, 1].into_iter().flat_map(|screen_mode| {
        let calls = cells().flat_map(|cell| {
            pairs(&[0, 127, 128, 255], &[Call::BlinkCursor.number(), Call::ClearCursor.number()])
                .into_iter()
                .flat_map(move |(byte, second)| {
                    let address = 8192 + cell.0 as u16 * 20 + cell.1 as u16;
                    let end = if second == Call::BlinkCursor.number() {
                        Call::BlinkCursor
                    } else {
                        Call::ClearCursor
                    };
                    let poke = Call::WriteByte { address, byte };
                    let moved = Call::SetColumn { column: 19 - cell.1 };
                    go_to(cell).into_iter().chain([
                        poke,
                        Call::TakeDirtyArea,
                        Call::BlinkCursor,
                        Call::TakeDirtyArea,
                        moved,
                        end,
                        Call::TakeDirtyArea,
                    ])
                })
        });
        from_record(record(1, screen_mode, 0), calls.map(Step::from))
    })
}

/// Every pair from 0x8000 on in both versions and both screen modes, forty at a time. Outside the
/// gap every fifth has an entry in the extra list. Those in the gap are in texts of their own, each
/// flushed with entries for every other code and then for the rest.
fn codes() -> impl Iterator<Item = List> {
    pairs(&[0, 1], &[0, 1]).into_iter().flat_map(|(version, mode)| {
        let (gap, others): (Vec<u16>, Vec<u16>) = (0x8000..=0xffff).partition(|code| in_gap(*code));
        let others = others.chunks(40).flat_map(|codes| shown(mode, codes, codes.iter().step_by(5)));
        let gap = gap.chunks(40).flat_map(|codes| {
            [0, 1].into_iter().flat_map(move |first| shown(mode, codes, codes[first..].iter().step_by(2)))
        });
        opened(open(version), others.chain(gap).collect::<Vec<_>>().into_iter())
    })
}

/// A text of these codes shown on an empty screen, with entries in the extra list for some.
fn shown<'a>(mode: u8, codes: &[u16], listed: impl Iterator<Item = &'a u16>) -> [Call; 3] {
    let extra_list = listed.flat_map(|code| extra_entry(*code)).collect();
    [
        Call::SetScreenMode { mode },
        Call::Print { text: codes.iter().flat_map(|code| code.to_be_bytes()).collect() },
        Call::Flush { fonts: FontsLent::whole(extra_list) },
    ]
}

/// Code, then an offset that depends on it.
fn extra_entry(code: u16) -> [u8; 6] {
    let [low, high] = code.to_le_bytes();
    let [offset_low, offset_high] = (code % 993).to_le_bytes();
    [low, high, offset_low, offset_high, 0, 0]
}

/// Codes of every sort at every row's end, with every pair of flags, at one or two ends. Of the two
/// in the gap one shows by the extra list.
fn row_ends() -> impl Iterator<Item = List> {
    let codes: [u16; 8] = [0xf8a1, 0xb0a1, 0xaaa1, 0xaffe, 0x8040, 0xfa46, 0x8041, 0xff00];
    let ends = [(19, 39), (39, 59), (59, 79), (79, 98), (98, 19), (99, 19), (19, 19)];
    pairs(&codes, &ends).into_iter().flat_map(move |(code, (one, other))| {
        let extra = [0x8040, 0xaffe].map(extra_entry).concat();
        let calls = (0..4u8).flat_map(move |flags| {
            let mut calls = vec![Call::Cls];
            for end in [one, other] {
                for (k, byte) in code.to_be_bytes().into_iter().enumerate() {
                    calls.extend(flagged_cell(end + k, flags >> k & 1));
                    calls.push(Call::WriteByte { address: 8192 + (end + k) as u16, byte });
                }
            }
            calls.push(Call::Flush { fonts: FontsLent::whole(extra.clone()) });
            calls
        });
        opened(open(1), calls)
    })
}

/// Give a cell its flag by printing into it, before its byte is poked.
fn flagged_cell(cell: usize, flag: u8) -> Vec<Call> {
    if cell > 98 {
        return vec![];
    }
    let mut calls = go_to((cell as u8 / 20, cell as u8 % 20)).to_vec();
    calls.extend([Call::SetPrintMode { mode: flag }, Call::Print { text: b"x".to_vec() }]);
    calls
}
