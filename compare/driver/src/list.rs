//! A list of calls: where it starts, and each call with what it is lent.

use crate::random::Random;
use calls::layout::{EDGE, MEMORY, PANEL, PANELS, RECORD, field};
use calls::{Buffers, Call};
use std::fmt;

#[derive(Debug, Clone, PartialEq, Eq)]
pub struct List {
    pub start: Start,
    pub steps: Vec<Step>,
}

/// The bytes before the first call. Memory, panels and an unopened record hold bytes made from a
/// seed, zeros for seed 0.
#[derive(Debug, Clone, PartialEq, Eq)]
pub struct Start {
    /// A valid record to start from. Without one the first call is an accepted open, and demand 3
    /// is due.
    pub record: Option<Vec<u8>>,
    pub seed: u64,
    /// How many panels the unit has: the buffers of the others are empty.
    pub panels: usize,
}

#[derive(Debug, Clone, PartialEq, Eq)]
pub struct Step {
    pub call: Call,
    pub lending: Lending,
}

#[derive(Debug, Clone, PartialEq, Eq)]
pub enum Lending {
    /// What the last accepted call left.
    Own,
    /// The same, after the host has emptied dirty and what every panel is owed, so that the call's own
    /// marks show. Only in lists that start from a record.
    Unmarked,
    /// A copy of that, with other lengths and some other record bytes. What is done to it is not
    /// part of the list.
    Other(Other),
}

#[derive(Debug, Clone, PartialEq, Eq)]
pub struct Other {
    /// Places of the record and the bytes that stand there instead.
    pub record_bytes: Vec<(usize, u8)>,
    pub record_len: usize,
    pub memory_len: usize,
    /// Of every panel.
    pub panel_len: usize,
}

impl List {
    /// The edge flag that it starts under: that of its record, or the one that its first open is told.
    pub fn edge(&self) -> u8 {
        match (&self.start.record, self.steps.first().map(|step| &step.call)) {
            (Some(record), _) => record[EDGE],
            (None, Some(Call::Open { edge, .. })) => *edge,
            (None, _) => 0,
        }
    }
}

impl From<Call> for Step {
    fn from(call: Call) -> Self {
        Self { call, lending: Lending::Own }
    }
}

impl Start {
    /// A start for a list whose first call is an open.
    pub fn unopened(seed: u64) -> Self {
        Self { record: None, seed, panels: PANELS }
    }

    pub fn fill(&self, buffers: &mut Buffers) {
        let mut random = Random::new(self.seed);
        let Buffers { record, memory, panels } = buffers;
        for (number, panel) in panels.iter_mut().enumerate() {
            panel.resize(if number < self.panels { PANEL } else { 0 }, 0);
        }
        for bytes in panels.iter_mut().chain([memory, record]) {
            if self.seed == 0 {
                bytes.fill(0);
            } else {
                random.fill(bytes);
            }
        }
        if let Some(record) = &self.record {
            buffers.record.copy_from_slice(record);
        }
    }
}

impl Other {
    /// Right lengths, the record as it is.
    pub fn same() -> Self {
        Self { record_bytes: vec![], record_len: RECORD, memory_len: MEMORY, panel_len: PANEL }
    }

    /// Make `copy` what is lent, from the host's own bytes.
    pub fn copy(&self, own: &Buffers, copy: &mut Buffers) {
        resized(&own.record, &mut copy.record, self.record_len);
        resized(&own.memory, &mut copy.memory, self.memory_len);
        for (panel, copy) in own.panels.iter().zip(&mut copy.panels) {
            resized(panel, copy, self.panel_len);
        }
        for (place, byte) in &self.record_bytes {
            if let Some(target) = copy.record.get_mut(*place) {
                *target = *byte;
            }
        }
    }
}

fn resized(from: &[u8], to: &mut Vec<u8>, len: usize) {
    to.clear();
    to.extend_from_slice(&from[..len.min(from.len())]);
    to.resize(len, 0);
}

/// The bytes of each field of a record that isn't zero.
pub fn fields(record: &[u8]) -> String {
    let mut fields = String::new();
    for part in (0..RECORD).collect::<Vec<_>>().chunk_by(|a, b| field(*a) == field(*b)) {
        let bytes = &record[part[0]..part[0] + part.len()];
        if bytes.iter().any(|byte| *byte != 0) {
            fields += &format!(" {} {bytes:?}", field(part[0]));
        }
    }
    fields
}

impl fmt::Display for List {
    fn fmt(&self, f: &mut fmt::Formatter) -> fmt::Result {
        match &self.start.record {
            None => writeln!(f, "  start: nothing opened, bytes of seed {}", self.start.seed)?,
            Some(record) => {
                write!(f, "  start: bytes of seed {}, a record with", self.start.seed)?;
                writeln!(f, "{}", fields(record))?;
            }
        }
        if self.start.panels < PANELS {
            writeln!(f, "  a unit with {} panels", self.start.panels)?;
        }
        for (place, step) in self.steps.iter().enumerate() {
            write!(f, "  {place}: {:?}", step.call)?;
            match &step.lending {
                Lending::Own => writeln!(f)?,
                Lending::Unmarked => writeln!(f, ", dirty and what every panel is owed emptied before")?,
                Lending::Other(other) => writeln!(f, "\n     lent a copy: {other:?}")?,
            }
        }
        Ok(())
    }
}
