//! Driver calls over whole ranges.

use super::{bytes, cut, states};
use crate::device::list::{Lending, Lengths, List, Other, Start, Step};
use calls::DeviceCall;
use calls::layout::*;
use calls::register::{BUSY, INTERRUPT, REGISTERS};

/// Panel and image start with other bytes than each other and the screen.
pub fn lists() -> impl Iterator<Item = List> {
    let start = Start { registers: [0; REGISTERS], seed: 0, record: Some(record()), level: None };
    let steps = lines().chain(numbers()).chain(lengths()).chain(registers()).chain(record_bytes());
    cut(start, steps)
}

/// A valid record with a rectangle in hand of each panel, and nothing owed to panel 0.
fn record() -> Vec<u8> {
    let mut record = vec![0; RECORD];
    record[GRAPHICS_BASE..ROW].copy_from_slice(&[0, 16, 0, 32]);
    for panel in 0..PANELS {
        put(&mut record, in_hand(panel), [5 + panel as u16, 6, 155 - panel as u16, 75]);
        if panel > 0 {
            put(&mut record, owed(panel, panel), [3, 16 * panel as u16 + 2, 150, 16 * panel as u16 + 10]);
        }
    }
    record
}

fn put(record: &mut [u8], place: usize, rect: [u16; 4]) {
    record[place..place + RECT].copy_from_slice(&rect.map(u16::to_le_bytes).concat());
}

fn rect_bytes(place: usize, rect: [u16; 4]) -> Vec<(usize, u8)> {
    let bytes = rect.into_iter().flat_map(u16::to_le_bytes);
    bytes.enumerate().map(|(k, byte)| (place + k, byte)).collect()
}

fn drive(number: u8, other: Other) -> Step {
    Step::Device(DeviceCall::Drive { number }, Lending::Other(other))
}

/// Every left and right of a line in hand, for each panel; every top and bottom. Enable and interrupt in turn.
fn lines() -> impl Iterator<Item = Step> {
    let across = (0..160).flat_map(|left| (left + 1..=160).map(move |right| [left, left % 80, right, 80]));
    let down = (0..80).flat_map(|top| (top + 1..=80).map(move |bottom| [7, top, 130, bottom]));
    let kinds = [[0, 0], [0, 1], [INTERRUPT, 0], [INTERRUPT, 1]].into_iter().cycle();
    across.chain(down).zip(kinds).flat_map(|(rect, [status, enable])| {
        (0..PANELS).map(move |panel| {
            let registers = Some([1, 255, 254, 253, 252, status, enable, 0]);
            drive(
                panel as u8,
                Other { record_bytes: rect_bytes(in_hand(panel), rect), registers, ..Other::same() },
            )
        })
    })
}

/// Every number, with a line due and idle, busy and not.
fn numbers() -> impl Iterator<Item = Step> {
    bytes().flat_map(|number| {
        let idle = (0..PANELS).flat_map(|panel| part(panel).map(|place| (place, 0))).collect::<Vec<_>>();
        [vec![], idle].into_iter().flat_map(move |record_bytes| {
            [0, BUSY].map(|status| {
                let registers = Some([2, 79, 19, 1, 0, status, 1, 0]);
                drive(number, Other { record_bytes: record_bytes.clone(), registers, ..Other::same() })
            })
        })
    })
}

/// Each of the five lengths right and wrong, for numbers that are panels' and one that is not.
fn lengths() -> impl Iterator<Item = Step> {
    let around = |right: usize| [0, 1, right - 1, right, right + 1, 2 * right];
    let records = (0..=2 * RECORD).map(|record| Lengths { record, ..Lengths::RIGHT });
    let memories = around(MEMORY).map(|memory| Lengths { memory, ..Lengths::RIGHT });
    let registers = (0..=24).map(|registers| Lengths { registers, ..Lengths::RIGHT });
    let panels = around(PANEL).map(|panel| Lengths { panel, ..Lengths::RIGHT });
    let images = around(PANEL).map(|image| Lengths { image, ..Lengths::RIGHT });
    let all = records.chain(memories).chain(registers).chain(panels).chain(images);
    all.flat_map(|lengths| [0, 3, 4].map(|number| drive(number, Other { lengths, ..Other::same() })))
}

/// All states of the registers, with a line due and, where they pass STATE, idle.
fn registers() -> impl Iterator<Item = Step> {
    let due = states::sound().chain(states::all()).map(|state| drive(1, Other::registers(state)));
    let idle = states::sound().map(|state| {
        let record_bytes = part(1).map(|place| (place, 0)).collect();
        drive(1, Other { record_bytes, ..Other::registers(state) })
    });
    due.chain(idle)
}

/// Every record byte with every value, for each panel in turn.
fn record_bytes() -> impl Iterator<Item = Step> {
    (0..RECORD).flat_map(|place| {
        bytes().map(move |byte| {
            drive(byte % PANELS as u8, Other { record_bytes: vec![(place, byte)], ..Other::same() })
        })
    })
}
