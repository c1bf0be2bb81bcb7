//! A list of device calls, with calls on the screen between: where it starts, and what each is lent.

use crate::random::Random;
use calls::layout::{MEMORY, PANEL, RECORD};
use calls::register::REGISTERS;
use calls::{Call, DeviceBuffers, DeviceCall};
use std::fmt;

#[derive(Debug, Clone, PartialEq, Eq)]
pub struct List {
    pub start: Start,
    pub steps: Vec<Step>,
}

/// The bytes before the first call.
#[derive(Debug, Clone, PartialEq, Eq)]
pub struct Start {
    pub registers: [u8; REGISTERS],
    /// Panel, image and memory hold bytes made from it, zeros for 0.
    pub seed: u64,
    /// A valid record. A list of register calls alone has none, and no memory of its own.
    pub record: Option<Vec<u8>>,
    /// The panel that is driven, where panel and image start equal to the panel that is sent to directly.
    pub level: Option<u8>,
}

#[derive(Debug, Clone, PartialEq, Eq)]
pub enum Step {
    Device(DeviceCall, Lending),
    /// Another call, on record and memory. A send is lent a panel of its own.
    Screen(Call),
}

#[derive(Debug, Clone, PartialEq, Eq)]
pub enum Lending {
    /// What the last accepted call left.
    Own,
    /// A copy of that with other bytes or lengths. What is done to it is not part of the list.
    Other(Other),
}

#[derive(Debug, Clone, PartialEq, Eq)]
pub struct Other {
    /// What the registers hold instead, before their length is changed.
    pub registers: Option<[u8; REGISTERS]>,
    /// Places of the record and the bytes that stand there instead.
    pub record_bytes: Vec<(usize, u8)>,
    pub lengths: Lengths,
}

#[derive(Debug, Clone, Copy, PartialEq, Eq)]
pub struct Lengths {
    pub record: usize,
    pub memory: usize,
    pub registers: usize,
    pub panel: usize,
    pub image: usize,
}

impl Lengths {
    pub const RIGHT: Self =
        Self { record: RECORD, memory: MEMORY, registers: REGISTERS, panel: PANEL, image: PANEL };
}

impl From<DeviceCall> for Step {
    fn from(call: DeviceCall) -> Self {
        Self::Device(call, Lending::Own)
    }
}

impl Start {
    pub fn fill(&self, buffers: &mut DeviceBuffers) {
        let mut random = Random::new(self.seed);
        let mut fill = |bytes: &mut [u8]| if self.seed == 0 { bytes.fill(0) } else { random.fill(bytes) };
        let DeviceBuffers { record, memory, registers, panel, image } = buffers;
        registers.copy_from_slice(&self.registers);
        fill(panel);
        if self.level.is_some() {
            image.copy_from_slice(panel);
        } else {
            fill(image);
        }
        match &self.record {
            Some(valid) => {
                record.copy_from_slice(valid);
                fill(memory);
            }
            None => record.fill(0),
        }
    }
}

impl Other {
    /// Right lengths, the same bytes.
    pub fn same() -> Self {
        Self { registers: None, record_bytes: vec![], lengths: Lengths::RIGHT }
    }

    /// Other registers.
    pub fn registers(registers: [u8; REGISTERS]) -> Self {
        Self { registers: Some(registers), ..Self::same() }
    }

    /// Make `copy` what is lent, from the host's own bytes, as far as the call takes it. Of memory there is
    /// a copy only where its length is another.
    pub fn copy(&self, call: &DeviceCall, own: &DeviceBuffers, copy: &mut DeviceBuffers) {
        let lengths = self.lengths;
        let registers = self.registers.as_ref().map_or(&own.registers[..], |registers| registers);
        resized(registers, &mut copy.registers, lengths.registers);
        resized(&own.panel, &mut copy.panel, lengths.panel);
        if let DeviceCall::Drive { .. } = call {
            resized(&own.image, &mut copy.image, lengths.image);
            resized(&own.record, &mut copy.record, lengths.record);
            for (place, byte) in &self.record_bytes {
                if let Some(target) = copy.record.get_mut(*place) {
                    *target = *byte;
                }
            }
            if lengths.memory != MEMORY {
                resized(&own.memory, &mut copy.memory, lengths.memory);
            }
        }
    }
}

fn resized(from: &[u8], to: &mut Vec<u8>, len: usize) {
    to.clear();
    to.extend_from_slice(&from[..len.min(from.len())]);
    to.resize(len, 0);
}

impl fmt::Display for List {
    fn fmt(&self, f: &mut fmt::Formatter) -> fmt::Result {
        let Start { registers, seed, record, level } = &self.start;
        writeln!(f, "  start: registers {registers:?}, bytes of seed {seed}")?;
        if let Some(number) = level {
            writeln!(f, "  panel and image as the panel {number} that is sent to directly")?;
        }
        if let Some(record) = record {
            writeln!(f, "  a record with{}", crate::list::fields(record))?;
        }
        for (place, step) in self.steps.iter().enumerate() {
            match step {
                Step::Screen(call) => writeln!(f, "  {place}: {call:?}")?,
                Step::Device(call, Lending::Own) => writeln!(f, "  {place}: {call:?}")?,
                Step::Device(call, Lending::Other(other)) => {
                    writeln!(f, "  {place}: {call:?}\n     lent a copy: {other:?}")?;
                }
            }
        }
        Ok(())
    }
}
