//! Change request 7 by its own words: the line driver.

use calls::layout::*;
use calls::register::{BUSY, INTERRUPT, REGISTERS, STATUS};
use calls::{Answer, Buffers, Call, DeviceBuffers, DeviceCall};

const OPEN: Call = Call::Open { graphics_base: 4096, text_base: 8192, version: 1, keys: [0; 8], edge: 0 };
const SCREEN_BASE: usize = 4096;

/// After an open, with this rectangle in hand of panel 2 and nothing owed to it; the bytes of screen, panel and
/// image differ.
fn with_in_hand(rect: [u16; 4]) -> DeviceBuffers {
    let mut screen = Buffers::zero();
    assert!(model::answer(&OPEN, screen.lend(&OPEN)).accepted());
    let mut buffers = DeviceBuffers { record: screen.record, ..DeviceBuffers::zero() };
    buffers.record[part(2)].fill(0);
    buffers.record[in_hand(2)..][..RECT].copy_from_slice(&rect.map(u16::to_le_bytes).concat());
    buffers.memory[SCREEN_BASE..][..SCREEN].fill(0b1100_1100);
    buffers.panel.fill(0b1111_0000);
    buffers.image.fill(0b1010_1010);
    buffers
}

fn drive(buffers: &mut DeviceBuffers, number: u8) -> Answer {
    model::device::answer(&DeviceCall::Drive { number }, buffers.lend())
}

/// What a send answers and leaves in the record, with a panel of its own.
fn sent(buffers: &DeviceBuffers, number: u8) -> (Answer, Vec<u8>) {
    let mut direct = Buffers::zero();
    direct.record.clone_from(&buffers.record);
    direct.memory.clone_from(&buffers.memory);
    let send = Call::Send { number };
    (model::answer(&send, direct.lend(&send)), direct.record)
}

/// The bytes that differ between two buffers: place, and what the second holds.
fn changed(before: &[u8], after: &[u8]) -> Vec<(usize, u8)> {
    (0..before.len())
        .filter(|place| before[*place] != after[*place])
        .map(|place| (place, after[place]))
        .collect()
}

#[test]
fn edge_bits_come_from_the_image() {
    // Pixels 3 to 20 of line 7.
    let mut buffers = with_in_hand([3, 7, 21, 9]);
    let before = buffers.clone();
    assert_eq!(drive(&mut buffers, 2), Answer::done([1, 7, 3, 21]));
    let line = [(140, 0b1010_1100), (141, 0b1100_1100), (142, 0b1100_1010)];
    assert_eq!(changed(&before.panel, &buffers.panel), line);
    assert_eq!(changed(&before.image, &buffers.image), line);
    assert_eq!(buffers.registers, [2, 7, 3, 0, 0b1100_1010, 0, 0, 0]);
    assert_eq!(four(&buffers.record, in_hand(2)), [3, 8, 21, 9]);
    assert_eq!(buffers.memory, before.memory);
}

#[test]
fn a_line_within_one_byte() {
    let mut buffers = with_in_hand([157, 79, 159, 80]);
    let before = buffers.clone();
    assert_eq!(drive(&mut buffers, 2), Answer::done([1, 79, 157, 159]));
    assert_eq!(changed(&before.panel, &buffers.panel), [(1599, 0b1010_1100)]);
    assert_eq!(buffers.registers, [2, 79, 20, 0, 0b1010_1100, 0, 0, 0]);
}

#[test]
fn a_whole_line_is_the_screens() {
    let mut buffers = with_in_hand([0, 0, 160, 1]);
    drive(&mut buffers, 2);
    for bytes in [&buffers.panel, &buffers.image] {
        assert!(bytes[..LINE].iter().all(|byte| *byte == 0b1100_1100));
    }
    assert_eq!(buffers.panel[LINE], 0b1111_0000);
    assert_eq!(buffers.image[LINE], 0b1010_1010);
    assert_eq!(buffers.registers, [2, 0, 20, 0, 0b1100_1100, 0, 0, 0]);
}

/// Whatever is enabled, pending, or left in the registers.
#[test]
fn idle_writes_nothing() {
    for status in [0, INTERRUPT] {
        let mut buffers = with_in_hand([0; 4]);
        buffers.registers.copy_from_slice(&[1, 200, 201, 202, 203, status, 1, 0]);
        let before = buffers.clone();
        assert_eq!(drive(&mut buffers, 2), Answer::done([0; 4]));
        assert!(buffers == before);
    }
}

/// At the line's end, as for any line; it reads no status.
#[test]
fn the_interrupt_of_a_driven_line() {
    for (status, enable, due) in [(0, 0, 0), (0, 1, 2), (2, 0, 2), (2, 1, 2)] {
        let mut buffers = with_in_hand([0, 0, 10, 1]);
        buffers.registers.copy_from_slice(&[0, 255, 255, 255, 0, status, enable, 0]);
        assert!(drive(&mut buffers, 2).accepted());
        assert_eq!(buffers.registers, [2, 0, 2, 0, 0b1110_1010, due, enable, 0]);
    }
}

#[test]
fn answer_and_record_are_those_of_a_send() {
    for left in 0..160 {
        for right in left + 1..=160 {
            let mut buffers = with_in_hand([left, left % 80, right, 80]);
            let due = sent(&buffers, 2);
            let answer = drive(&mut buffers, 2);
            assert!((answer, buffers.record) == due, "{left} to {right}");
        }
    }
}

#[test]
fn from_equal_panels_the_three_stay_equal() {
    let mut buffers = with_in_hand([0; 4]);
    buffers.panel.fill(0);
    buffers.image.fill(0);
    buffers.memory.fill(0);
    let mut direct = Buffers::zero();
    direct.record.clone_from(&buffers.record);
    let send = Call::Send { number: 2 };
    for (x, y) in [(3, 2), (12, 2), (159, 79), (0, 40), (8, 41)] {
        let point = Call::DrawPoint { x, y, mode: 2 };
        let lent = calls::Lent { record: &mut buffers.record, memory: &mut buffers.memory, panel: &mut [] };
        assert!(model::answer(&point, lent).accepted());
        assert!(model::answer(&point, direct.lend(&point)).accepted());
        for _ in 0..3 {
            assert_eq!(drive(&mut buffers, 2), model::answer(&send, direct.lend(&send)));
            assert_eq!(buffers.record, direct.record);
            assert!(buffers.panel == direct.panels[2] && buffers.image == direct.panels[2]);
        }
    }
    assert_eq!(buffers.panel, buffers.memory[SCREEN_BASE..][..SCREEN]);
}

/// LENT by any of the five, then STATE by record or registers, then PANEL, then REGISTER.
#[test]
fn refusals_in_their_order() {
    type Damage = fn(&mut DeviceBuffers);
    let lengths: [Damage; 5] = [
        |lent| lent.record.truncate(RECORD - 1),
        |lent| lent.memory.push(0),
        |lent| lent.registers.truncate(REGISTERS - 1),
        |lent| lent.panel.push(0),
        |lent| lent.image.truncate(0),
    ];
    let states: [Damage; 2] = [|lent| lent.record[ROW] = 5, |lent| lent.registers[STATUS] = 4];
    let busy: Damage = |lent| lent.registers.copy_from_slice(&[2, 0, 0, 1, 0, BUSY, 0, 0]);
    let refused = |damages: &[Damage], number: u8, code: u32| {
        let mut buffers = with_in_hand([0, 0, 9, 1]);
        damages.iter().for_each(|damage| damage(&mut buffers));
        let before = buffers.clone();
        assert_eq!(drive(&mut buffers, number), Answer { code, numbers: [0; 4] });
        assert!(buffers == before);
    };
    for length in lengths {
        refused(&[length], 2, 1);
        refused(&[states[0], busy, length], 4, 1);
    }
    for state in states {
        refused(&[state], 2, 2);
        refused(&[busy, state], 4, 2);
    }
    for number in 4..=255 {
        refused(&[], number, 9);
        refused(&[busy], number, 9);
    }
    refused(&[busy], 2, 10);
    let idle: Damage = |lent| lent.record[part(2)].fill(0);
    refused(&[busy, idle], 2, 10);
}
