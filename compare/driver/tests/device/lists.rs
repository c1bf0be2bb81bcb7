//! What the exhaustive lists show.

use calls::layout::*;
use calls::register::*;
use calls::{Answer, DeviceBuffers, DeviceCall};
use driver::device::exhaustive;
use driver::device::list::{Lending, Other, Step};
use std::collections::HashSet;
use std::fs;

/// The calls that are lent other bytes, with these.
fn lent() -> impl Iterator<Item = (DeviceCall, Other)> {
    exhaustive::lists().flat_map(|list| list.steps).filter_map(|step| match step {
        Step::Device(call, Lending::Other(other)) => Some((call, other)),
        _ => None,
    })
}

fn with_registers() -> impl Iterator<Item = (DeviceCall, [u8; REGISTERS])> {
    lent().filter_map(|(call, other)| Some((call, other.registers?)))
}

/// What the model answers on these registers.
fn answer(call: &DeviceCall, registers: [u8; REGISTERS]) -> Answer {
    let mut buffers = DeviceBuffers::zero();
    buffers.registers.copy_from_slice(&registers);
    model::device::answer(call, buffers.lend())
}

#[test]
fn command_2_with_every_first_byte_and_count() {
    let start = DeviceCall::Write { register: COMMAND as u8, value: START };
    let fields: HashSet<[u8; 3]> = with_registers()
        .filter(|(call, registers)| *call == start && registers[STATUS] & BUSY == 0)
        .map(|(_, registers)| [registers[LINE_NUMBER], registers[FIRST_BYTE], registers[BYTE_COUNT]])
        .collect();
    for (line, taken) in [(0, 210), (79, 210), (80, 0)] {
        let mut accepted = 0;
        for (first, count) in (0..=255).flat_map(|first| (0..=255).map(move |count| (first, count))) {
            assert!(fields.contains(&[line, first, count]), "{line} {first} {count}");
            accepted += answer(&start, [0, line, first, count, 0, 0, 0, 0]).accepted() as u32;
        }
        assert_eq!(accepted, taken, "line {line}");
    }
}

/// Each field at 0, at its limit, above it and at 255; of those that pass STATE.
#[test]
fn every_value_in_every_register_of_sound_states() {
    let mut values = std::collections::HashMap::new();
    for (call, registers) in with_registers() {
        if let DeviceCall::Write { register: register @ 0..8, value } = call {
            let seen = values.entry(registers).or_insert([[false; 256]; REGISTERS]);
            seen[register as usize][value as usize] = true;
        }
    }
    let whole = values.iter().filter(|(_, seen)| seen.iter().flatten().all(|seen| *seen));
    let whole: HashSet<[u8; REGISTERS]> = whole.map(|(registers, _)| *registers).collect();
    let due = whole_states();
    assert!(due.len() > 1_000 && due.is_subset(&whole), "{} of {}", whole.len(), due.len());
}

fn whole_states() -> HashSet<[u8; REGISTERS]> {
    let mut states = HashSet::new();
    for (line, first, count) in [0, 79, 80, 255].into_iter().flat_map(|line| {
        let firsts = [0, 19, 20, 255].into_iter();
        firsts.flat_map(move |first| [0, 1, 20, 21, 255].map(|count| (line, first, count)))
    }) {
        for (command, status, enable) in (0..3)
            .flat_map(|command| (0..4).flat_map(move |status| [0, 1].map(|enable| (command, status, enable))))
        {
            states.insert([command, line, first, count, 7, status, enable, 0]);
        }
    }
    states.retain(|registers| answer(&DeviceCall::Read { register: 0 }, *registers).accepted());
    states
}

#[test]
fn every_number_of_a_register_with_every_value() {
    let told: HashSet<(u8, u8)> = with_registers()
        .filter_map(|(call, _)| match call {
            DeviceCall::Write { register, value } => Some((register, value)),
            _ => None,
        })
        .collect();
    assert_eq!(told.len(), 65_536);
}

#[test]
fn every_place_of_the_panel() {
    let places: HashSet<(u8, u8)> = with_registers()
        .filter(|(call, registers)| {
            matches!(call, DeviceCall::Write { register: 4, .. }) && answer(call, *registers).accepted()
        })
        .map(|(_, registers)| (registers[LINE_NUMBER], registers[FIRST_BYTE]))
        .collect();
    assert_eq!(places.len(), PANEL);
}

#[test]
fn every_left_and_right_of_a_line_driven_to_each_panel() {
    let mut met = HashSet::new();
    for (call, other) in lent() {
        if let (DeviceCall::Drive { number: number @ 0..4 }, RECT) = (call, other.record_bytes.len()) {
            let bytes: Vec<u8> = other.record_bytes.iter().map(|(_, byte)| *byte).collect();
            if other.record_bytes[0].0 == in_hand(number as usize) {
                let [left, _, right, _] = four(&bytes, 0);
                met.insert((number, left, right));
            }
        }
    }
    assert_eq!(met.len(), PANELS * 160 * 161 / 2);
}

#[test]
fn every_record_byte_with_every_value_for_a_driver_call() {
    let met: HashSet<(usize, u8)> = lent()
        .filter(|(call, _)| matches!(call, DeviceCall::Drive { .. }))
        .flat_map(|(_, other)| other.record_bytes)
        .collect();
    assert_eq!(met.len(), RECORD * 256);
}

#[test]
fn the_readme_says_how_many() {
    let readme =
        fs::read_to_string(concat!(env!("CARGO_MANIFEST_DIR"), "/../README.md")).expect("the README");
    let lists = exhaustive::lists().count();
    let calls: usize = exhaustive::lists().map(|list| list.steps.len()).sum();
    let words = format!("{lists} exhaustive lists of device calls, {calls} calls");
    assert!(readme.replace(',', "").contains(&words.replace(',', "")), "{words}");
}
