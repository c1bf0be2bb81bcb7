//! Lists of device calls that go through whole ranges.

mod drives;
mod states;

use super::list::{Lending, Lengths, List, Other, Start, Step};
use calls::DeviceCall;
use calls::layout::{HEIGHT, LINE, PANEL};
use calls::register::*;

/// Calls in a list at most.
const CALLS: usize = 500;

/// All of them, one after another.
pub fn lists() -> impl Iterator<Item = List> {
    registers_alone(data().chain(lengths()))
        .chain(drives::lists())
        .chain(registers_alone(starts().chain(busy_fields())))
        .chain(registers_alone(damaged_registers().chain(every_register())))
        .chain(registers_alone(sound_registers()))
}

/// Cut a stream of steps into lists that start so, over bytes of changing seeds.
fn cut(start: Start, steps: impl Iterator<Item = Step>) -> impl Iterator<Item = List> {
    let mut steps = steps;
    let mut seed = 0;
    std::iter::from_fn(move || {
        let part: Vec<Step> = steps.by_ref().take(CALLS).collect();
        seed += 1;
        (!part.is_empty()).then(|| List { start: Start { seed, ..start.clone() }, steps: part })
    })
}

fn registers_alone(steps: impl Iterator<Item = Step>) -> impl Iterator<Item = List> {
    cut(Start { registers: [0; REGISTERS], seed: 0, record: None, level: None }, steps)
}

fn bytes() -> impl Iterator<Item = u8> + Clone {
    0..=255
}

/// Every pair of bytes.
fn pairs() -> impl Iterator<Item = (u8, u8)> {
    bytes().flat_map(|one| bytes().map(move |other| (one, other)))
}

fn write(register: usize, value: u8) -> DeviceCall {
    DeviceCall::Write { register: register as u8, value }
}

/// A call that is lent these registers.
fn on(registers: [u8; REGISTERS], call: DeviceCall) -> Step {
    Step::Device(call, Lending::Other(Other::registers(registers)))
}

/// Status while busy, and enable.
const BUSY_STATES: [[u8; 2]; 4] = [[BUSY, 0], [BUSY, 1], [BUSY | INTERRUPT, 0], [BUSY | INTERRUPT, 1]];

/// A byte at every place of the panel, the last of its line or not.
fn data() -> impl Iterator<Item = Step> {
    let places = (0..HEIGHT as u8).flat_map(|line| (0..LINE as u8).map(move |first| (line, first)));
    places.flat_map(|(line, first)| {
        let call = write(DATA, line ^ first << 3 ^ 0x55);
        [1, 20 - first].into_iter().flat_map(move |count| {
            BUSY_STATES.map(|[status, enable]| on([2, line, first, count, 0, status, enable, 0], call))
        })
    })
}

/// Registers that pass STATE, and such as don't.
const PASSING: [[u8; REGISTERS]; 2] = [[0, 0, 0, 0, 0, INTERRUPT, 1, 0], [0, 0, 0, 0, 0, 4, 0, 0]];

/// Lengths of registers and panel, right and wrong.
fn lengths() -> impl Iterator<Item = Step> {
    let panels = [0, 1, 8, PANEL - 1, PANEL, PANEL + 1, 2 * PANEL];
    let lengths = (0..=24).flat_map(move |registers| panels.map(|panel| (registers, panel)));
    lengths.flat_map(|(registers, panel)| {
        let lengths = Lengths { registers, panel, ..Lengths::RIGHT };
        let writes = [LINE_NUMBER, 8].map(|register| write(register, 7));
        let reads = [5, 9].map(|register| DeviceCall::Read { register });
        let calls = writes.into_iter().chain(reads);
        calls.flat_map(move |call| {
            let others = PASSING.map(|registers| Other { lengths, ..Other::registers(registers) });
            others.map(|other| Step::Device(call, Lending::Other(other)))
        })
    })
}

/// Command 2 with every first byte and count, on the first line, the last one and the one below it.
fn starts() -> impl Iterator<Item = Step> {
    [0, 79, 80].into_iter().flat_map(|line| {
        pairs().map(move |(first, count)| {
            let status = if (first ^ count) & 1 == 1 { INTERRUPT } else { 0 };
            on([0, line, first, count, 0, status, 0, 0], write(COMMAND, START))
        })
    })
}

/// The same pairs while busy, and every line.
fn busy_fields() -> impl Iterator<Item = Step> {
    let by_pair = [0, 79].into_iter().flat_map(|line| {
        pairs()
            .map(move |(first, count)| on([2, line, first, count, 0, BUSY, 1, 0], write(DATA, first ^ 0xa5)))
    });
    let by_line = bytes().flat_map(|line| {
        [write(DATA, 1), write(RESET, 0), DeviceCall::Read { register: 1 }]
            .map(|call| on([2, line, 19, 1, 0, BUSY | INTERRUPT, 0, 0], call))
    });
    by_pair.chain(by_line)
}

/// Every register with every value, on each of the sound states; and every register read.
fn sound_registers() -> impl Iterator<Item = Step> {
    states::sound().flat_map(|state| {
        let writes = (0..REGISTERS).flat_map(|register| bytes().map(move |value| write(register, value)));
        let reads = (0..=REGISTERS as u8).map(|register| DeviceCall::Read { register });
        writes.chain(reads).map(move |call| on(state, call))
    })
}

/// Every number of a register with every value, on some states; and read.
fn every_register() -> impl Iterator<Item = Step> {
    let states = [[0, 0, 0, 1, 0, 0, 1, 0], [2, 79, 19, 1, 9, BUSY | INTERRUPT, 0, 0]];
    states.into_iter().flat_map(|state| {
        let writes = pairs().map(|(register, value)| DeviceCall::Write { register, value });
        let reads = bytes().map(|register| DeviceCall::Read { register });
        writes.chain(reads).map(move |call| on(state, call))
    })
}

/// Every register written, with values in turn, and one read, on each state that STATE may refuse.
fn damaged_registers() -> impl Iterator<Item = Step> {
    let values = [0, 1, 2, 3, 80, 255].into_iter().cycle();
    states::all().zip(values).flat_map(|(state, value)| {
        let writes = (0..REGISTERS).map(move |register| write(register, value));
        let read = DeviceCall::Read { register: value % 8 };
        writes.chain([read]).map(move |call| on(state, call))
    })
}
