//! What the core refuses, of whatever it is lent and told.

use crate::core_calls::{Call, Lent, Told, accepted, all};
use caption::{Screen, Setup};
use caption_sys::layout;
use std::collections::{BTreeMap, BTreeSet};

/// The call answers this refusal, with zeros beside it, and changes no byte.
fn assert_refused(call: &Call, lent: &Lent, told: &Told, number: u32, why: &str) {
    let mut left = lent.clone();
    let answer = (call.run)(&mut left, told);
    assert_eq!(answer[0], number, "{}: {why}", call.name);
    assert!(answer[1..].iter().all(|number| *number == 0), "{}: {why}", call.name);
    assert!(left == *lent, "{}: {why}", call.name);
}

#[test]
fn a_call_without_a_fault_is_done() {
    for call in all() {
        let (mut lent, told) = accepted();
        let were = lent.clone();
        let answer = (call.run)(&mut lent, &told);
        assert_eq!(answer[0], 0, "{}", call.name);
        assert!(answer.iter().any(|number| *number != 0) || lent != were, "{} does nothing", call.name);
    }
}

/// Lengths that a buffer of this name must not have where it may have this one. Texts and fonts may have any.
fn wrong_lengths(name: &str, length: usize) -> Vec<usize> {
    match name {
        "record" | "memory" | "panel" | "registers" | "image" => vec![0, length - 1, length + 1],
        "extra_list" => vec![1, length - 1, length + 1],
        _ => vec![],
    }
}

#[test]
fn a_buffer_of_another_length_is_refused() {
    for call in all() {
        for (name, of) in &call.lends {
            let (mut lent, told) = accepted();
            for length in wrong_lengths(name, of(&mut lent).len()) {
                let (mut lent, _) = accepted();
                of(&mut lent).resize(length, 0);
                assert_refused(&call, &lent, &told, 1, &format!("{name} of {length} bytes"));
            }
        }
    }
}

fn four(left: u16, top: u16, right: u16, bottom: u16) -> Vec<u8> {
    [left, top, right, bottom].into_iter().flat_map(u16::to_le_bytes).collect()
}

/// A place in the record and bytes that must not stand there.
fn record_damages() -> Vec<(usize, Vec<u8>)> {
    let mut damages = vec![
        (layout::GRAPHICS_BASE, 63_936_u16.to_le_bytes().to_vec()),
        (layout::TEXT_BASE, 65_436_u16.to_le_bytes().to_vec()),
        (layout::TEXT_BASE, (0x3000_u16 + 1_599).to_le_bytes().to_vec()),
        (layout::ROW, vec![5]),
        (layout::COLUMN, vec![20]),
        (layout::SCREEN_MODE, vec![2]),
        (layout::PRINT_MODE, vec![3]),
        (layout::CURSOR, vec![3]),
        (layout::VERSION, vec![2]),
        (layout::EDGE, vec![2]),
        (layout::FLAGS, vec![2]),
        (layout::FLAGS_END - 1, vec![255]),
        (layout::DIRTY, four(0, 0, 257, 1)),
        (layout::DIRTY, four(0, 0, 1, 257)),
        (layout::DIRTY, four(5, 0, 5, 1)),
        (layout::DIRTY, four(0, 6, 1, 5)),
    ];
    for panel in 0..layout::PANELS {
        for band in 0..layout::BANDS {
            let (top, place) = (16 * band as u16, layout::owed(panel, band));
            damages.extend([(place, four(0, top, 161, top + 16)), (place, four(0, top, 160, top + 17))]);
            damages.extend([(place, four(9, top, 9, top + 1)), (place, four(0, top + 5, 160, top + 5))]);
            if band > 0 {
                damages.push((place, four(0, top - 1, 160, top + 1)));
            }
        }
        let place = layout::in_hand(panel);
        damages.extend([(place, four(0, 0, 161, 80)), (place, four(0, 0, 160, 81)), (place, four(0, 0, 0, 1))]);
    }
    damages
}

#[test]
fn a_damaged_record_is_refused() {
    for call in all().into_iter().filter(|call| call.lends("record")) {
        for (place, bytes) in record_damages() {
            let (mut lent, told) = accepted();
            lent.record[place..][..bytes.len()].copy_from_slice(&bytes);
            if call.name == "caption_open" {
                assert_eq!((call.run)(&mut lent, &told), [0], "an open reads no record");
            } else {
                assert_refused(&call, &lent, &told, 2, &format!("{bytes:?} in record byte {place}"));
            }
        }
    }
}

const DAMAGED_REGISTERS: [[u8; 8]; 9] = [
    [3, 0, 0, 0, 0, 0, 0, 0],
    [0, 0, 0, 0, 0, 4, 0, 0],
    [0, 0, 0, 0, 0, 0, 2, 0],
    [0, 0, 0, 0, 0, 0, 0, 1],
    [2, 80, 0, 1, 0, 1, 0, 0],
    [2, 0, 0, 0, 0, 1, 0, 0],
    [2, 0, 0, 21, 0, 3, 0, 0],
    [2, 0, 20, 1, 0, 1, 1, 0],
    [2, 0, 255, 1, 0, 1, 0, 0],
];

#[test]
fn damaged_registers_are_refused() {
    for call in all().into_iter().filter(|call| call.lends("registers")) {
        for registers in DAMAGED_REGISTERS {
            let (mut lent, mut told) = accepted();
            lent.registers.copy_from_slice(&registers);
            for register in [1, 7] {
                told.register = register;
                assert_refused(&call, &lent, &told, 2, &format!("{registers:?}"));
            }
        }
    }
}

#[test]
fn each_fault_is_refused_with_its_number() {
    for call in all() {
        for (number, fault) in &call.faults {
            let (mut lent, mut told) = accepted();
            fault(&mut lent, &mut told);
            assert_refused(&call, &lent, &told, *number, "its own fault");
        }
    }
}

type AnyFault = (u32, Box<dyn Fn(&mut Lent, &mut Told)>);

/// The call's own faults, with a short length for each buffer that has one and a damage for record and registers.
fn faults(call: &Call) -> Vec<AnyFault> {
    let mut faults: Vec<AnyFault> = Vec::new();
    for (name, of) in call.lends.iter().copied() {
        let reads = call.name != "caption_open";
        match name {
            "record" if reads => faults.push((2, Box::new(|lent, _| lent.record[layout::ROW] = 5))),
            "registers" => faults.push((2, Box::new(|lent, _| lent.registers[7] = 1))),
            _ => {}
        }
        if !wrong_lengths(name, 6).is_empty() {
            faults.push((1, Box::new(move |lent, _| of(lent).truncate(5))));
        }
    }
    let own = call.faults.iter().copied();
    faults.extend(own.map(|(number, fault)| -> AnyFault { (number, Box::new(fault)) }));
    faults
}

/// The later one is made first: it may touch bytes that the earlier one takes away.
#[test]
fn the_first_refusal_due_is_answered() {
    for call in all() {
        let faults = faults(&call);
        for (number, fault) in &faults {
            for (later, other) in faults.iter().filter(|(later, _)| later > number) {
                let (mut lent, mut told) = accepted();
                other(&mut lent, &mut told);
                fault(&mut lent, &mut told);
                assert_refused(&call, &lent, &told, *number, &format!("{number} and {later}"));
            }
        }
    }
}

/// The crate answers it without a call.
#[test]
fn core_and_crate_refuse_every_panel_number_above_three() {
    let mut screen = Screen::open(&Setup::new()).unwrap();
    for name in ["caption_send", "caption_drive_line"] {
        let call = all().into_iter().find(|call| call.name == name).unwrap();
        let (lent, mut told) = accepted();
        for number in 4..=255 {
            told.number = number;
            let refusal = screen.send(number).unwrap_err();
            assert_refused(&call, &lent, &told, refusal.number(), &format!("panel {number}"));
        }
    }
}

/// The refusals of each call in the table of docs/CALLS.md.
fn documented() -> BTreeMap<String, BTreeSet<u32>> {
    let path = concat!(env!("CARGO_MANIFEST_DIR"), "/../../docs/CALLS.md");
    let text = std::fs::read_to_string(path).expect("the table");
    let rows = text.lines().map(|line| line.split('|').map(str::trim).collect::<Vec<_>>());
    let calls = rows.filter(|row| row.len() == 9 && row[1].starts_with("caption_"));
    let numbers = |cell: &str| cell.split(|c: char| !c.is_ascii_digit()).filter_map(|word| word.parse().ok()).collect();
    calls
        .flat_map(|row| {
            let numbers: BTreeSet<u32> = numbers(row[5]);
            row[1].split(", ").map(|name| (name.to_string(), numbers.clone())).collect::<Vec<_>>()
        })
        .collect()
}

#[test]
fn every_refusal_that_is_documented_is_tried() {
    let tried = all().into_iter().map(|call| {
        (call.name.to_string(), faults(&call).into_iter().map(|(number, _)| number).collect::<BTreeSet<u32>>())
    });
    let tried: BTreeMap<_, _> = tried.collect();
    assert_eq!(tried.len(), 28);
    assert_eq!(tried, documented());
}
