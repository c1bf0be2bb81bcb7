//! The shortest list of device calls that shows a difference.

use super::judge::Judge;
use super::list::{Lending, Lengths, List, Other, Start, Step};
use super::tally::Tally;
use crate::judge::Difference;
use crate::shrink::{Smaller, parts, simpler_records, smaller_calls};
use calls::DeviceCall;
use calls::register::REGISTERS;

/// A list that differs, no longer than the given one, and its difference. `None` if it doesn't differ.
pub fn shrink(list: &List, judge: &mut Judge) -> Option<(List, Difference)> {
    let mut differs = |list: &List| judge.judge(list, &mut Tally::default()).err();
    let mut difference = differs(list)?;
    let mut list = list.clone();
    list.steps.truncate(difference.place + 1);
    loop {
        let mut candidates = shorter(&list).into_iter().chain(simpler(&list));
        match candidates.find_map(|candidate| differs(&candidate).map(|found| (candidate, found))) {
            Some(smaller) => (list, difference) = smaller,
            None => return Some((list, difference)),
        }
    }
}

/// Without some of the steps.
fn shorter(list: &List) -> Vec<List> {
    let without = |part: std::ops::Range<usize>| {
        let mut shorter = list.clone();
        shorter.steps.drain(part);
        shorter
    };
    parts(0..list.steps.len()).into_iter().map(without).collect()
}

/// The same steps with one thing smaller.
fn simpler(list: &List) -> Vec<List> {
    let starts = simpler_starts(&list.start).into_iter();
    let mut lists: Vec<List> = starts.map(|start| List { start, steps: list.steps.clone() }).collect();
    for (place, step) in list.steps.iter().enumerate() {
        lists.extend(simpler_steps(step).into_iter().map(|step| {
            let mut simpler = list.clone();
            simpler.steps[place] = step;
            simpler
        }));
    }
    lists
}

/// Zeros for bytes of a seed and for registers; panelrun's windows and zeros in the fields of a record.
fn simpler_starts(start: &Start) -> Vec<Start> {
    let mut starts = vec![Start { seed: 0, ..start.clone() }];
    starts.extend(with_a_zero(start.registers).map(|registers| Start { registers, ..start.clone() }));
    if let Some(record) = &start.record {
        let simpler = simpler_records(record).into_iter();
        starts.extend(simpler.map(|record| Start { record: Some(record), ..start.clone() }));
    }
    starts.retain(|simpler| simpler != start);
    starts
}

fn with_a_zero(registers: [u8; REGISTERS]) -> impl Iterator<Item = [u8; REGISTERS]> {
    let zeroed = move |register: usize| {
        let mut zeroed = registers;
        zeroed[register] = 0;
        zeroed
    };
    (0..REGISTERS).filter(move |register| registers[*register] != 0).map(zeroed)
}

fn simpler_steps(step: &Step) -> Vec<Step> {
    match step {
        Step::Screen(call) => smaller_calls(call).into_iter().map(Step::Screen).collect(),
        Step::Device(call, lending) => {
            let calls = smaller_device_calls(*call).into_iter();
            let mut steps: Vec<Step> = calls.map(|call| Step::Device(call, lending.clone())).collect();
            if let Lending::Other(other) = lending {
                let simpler = simpler_others(other).into_iter();
                steps.push((*call).into());
                steps.extend(simpler.map(|other| Step::Device(*call, Lending::Other(other))));
            }
            steps
        }
    }
}

fn simpler_others(other: &Other) -> Vec<Other> {
    let mut simpler = vec![
        Other { lengths: Lengths::RIGHT, ..other.clone() },
        Other { record_bytes: vec![], ..other.clone() },
        Other { registers: None, ..other.clone() },
    ];
    if let Some(registers) = other.registers {
        simpler.extend(
            with_a_zero(registers).map(|registers| Other { registers: Some(registers), ..other.clone() }),
        );
    }
    simpler.retain(|simpler| simpler != other);
    simpler
}

fn smaller_device_calls(call: DeviceCall) -> Vec<DeviceCall> {
    match call {
        DeviceCall::Write { register, value } => {
            let registers =
                register.smaller().into_iter().map(|register| DeviceCall::Write { register, value });
            let values = value.smaller().into_iter().map(|value| DeviceCall::Write { register, value });
            registers.chain(values).collect()
        }
        DeviceCall::Read { register } => {
            register.smaller().into_iter().map(|register| DeviceCall::Read { register }).collect()
        }
        DeviceCall::Drive { number } => {
            number.smaller().into_iter().map(|number| DeviceCall::Drive { number }).collect()
        }
    }
}
