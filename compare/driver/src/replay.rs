//! A stored list of calls and what the reference makes of it, for a program that replays it on
//! the core. README.md says how the two files look.
//!
//! Only calls of the core that the reference has too, and only such as document 01 with the change
//! requests accepts and the reference does without a panic and as these say: no flush that shows a
//! pair in the gap, and no print that holds one. The answers are the reference's alone.

use crate::judge::panics;
use crate::random::{Random, Windows};
use calls::layout::IN_REFERENCE;
use calls::{Buffers, Call, FontsLent};
use reference::{Reference, Told, in_gap};
use std::fmt::Write;
use std::iter::repeat_n;

const IN_CORE: &str = include_str!("../../core/calls.txt");

const LISTS: u64 = 16;
const CALLS_IN_LIST: usize = 300;

/// So much more often than another call a print is chosen: most flushes show a text then.
const MORE_PRINTS: usize = 4;

/// The bytes of one stored call.
const STORED: usize = 16;

pub struct Replay {
    /// The stored calls, `STORED` bytes each.
    pub stdin: Vec<u8>,
    /// A line for each: the answer's five numbers and the checksum.
    pub stdout: String,
}

pub fn make() -> Replay {
    let mut replay = Replay { stdin: vec![], stdout: String::new() };
    let mut reference = Reference::default();
    for seed in 0..LISTS {
        replay.add_list(&mut Random::new(seed), &mut reference);
    }
    replay
}

impl Replay {
    /// An open, calls that are accepted, one after another, and a reset.
    fn add_list(&mut self, random: &mut Random, reference: &mut Reference) {
        let numbers = replayed_numbers();
        let windows = random.windows();
        let mut state = Buffers::zero();
        let open = open(random, windows);
        model::answer(&open, state.lend(&open));
        self.add(&open, reference);
        for _ in 0..CALLS_IN_LIST {
            let number = random.pick(&numbers);
            let call = fit(random.call(number, windows));
            let done_alike = !panics::due(&call) && reference.can_follow(&call) && !prints_gap(&call);
            if done_alike && model::answer(&call, state.lend(&call)).accepted() {
                self.add(&call, reference);
            }
        }
        self.add(&Call::Reset, reference);
    }

    fn add(&mut self, call: &Call, reference: &mut Reference) {
        let Told::Answer([a, b, c, d]) = reference.call(call) else {
            unreachable!("{call:?}: the reference panicked")
        };
        self.stdin.extend(stored(call));
        let sum = checksum(reference);
        writeln!(self.stdout, "0 {a} {b} {c} {d} {sum}").expect("a string takes all");
    }
}

/// The names of the calls in the list: those that the core and the reference have.
pub fn names() -> Vec<&'static str> {
    let in_core: Vec<&str> = IN_CORE.lines().collect();
    Call::NAMES.into_iter().filter(|name| in_core.contains(name) && *name != "send").collect()
}

/// The calls that come after open. Reset would wipe what the others did; it comes last in each list.
fn replayed_numbers() -> Vec<usize> {
    let names = names().into_iter().filter(|name| !["open", "reset"].contains(name));
    names.chain(repeat_n("print", MORE_PRINTS)).filter_map(Call::number_of).collect()
}

/// An open whose key words fit into a stored call, with the edge flag that the reference knows.
fn open(random: &mut Random, windows: Windows) -> Call {
    let [first, .., last] = random.key_words();
    Call::Open {
        graphics_base: windows.graphics_base,
        text_base: windows.text_base,
        version: random.below(2) as u8,
        keys: [first, 0, 0, 0, 0, 0, 0, last],
        edge: 0,
    }
}

/// A call as far as its stored form holds it.
fn fit(call: Call) -> Call {
    match call {
        Call::Print { mut text } => {
            text.truncate(STORED - 2);
            Call::Print { text }
        }
        Call::Flush { .. } => Call::Flush { fonts: FontsLent::whole(vec![]) },
        call => call,
    }
}

/// Whether a printed text has the bytes of a pair in the gap anywhere.
fn prints_gap(call: &Call) -> bool {
    let Call::Print { text } = call else { return false };
    text.windows(2).any(|two| in_gap(u16::from_be_bytes([two[0], two[1]])))
}

/// The number of the call, then what it is told in the order of the C interface, least byte
/// first; the rest is zero.
fn stored(call: &Call) -> [u8; STORED] {
    let mut bytes = vec![call.number() as u8];
    match *call {
        Call::Open { graphics_base, text_base, version, keys, edge } => {
            bytes.extend(graphics_base.to_le_bytes());
            bytes.extend(text_base.to_le_bytes());
            bytes.push(version);
            bytes.extend(keys[0].to_le_bytes());
            bytes.extend(keys[7].to_le_bytes());
            bytes.push(edge);
        }
        Call::DrawPoint { x, y, mode } => bytes.extend([x, y, mode]),
        Call::DrawLine { x1, y1, x2, y2, mode } => bytes.extend([x1, y1, x2, y2, mode]),
        Call::DrawBox { x1, y1, x2, y2, fill, mode } => bytes.extend([x1, y1, x2, y2, fill, mode]),
        Call::DrawCircle { x, y, r, fill, mode } => bytes.extend([x, y, r, fill, mode]),
        Call::DrawEllipse { x, y, rx, ry, fill, mode } => bytes.extend([x, y, rx, ry, fill, mode]),
        Call::CheckPoint { x, y } => bytes.extend([x.to_le_bytes(), y.to_le_bytes()].concat()),
        Call::PaintBitmap { address, x, y, width, height, mode }
        | Call::PaintBitmapByBytes { address, x, y, width, height, mode } => {
            bytes.extend(address.to_le_bytes());
            bytes.extend([x.to_le_bytes(), y.to_le_bytes()].concat());
            bytes.extend([width, height, mode]);
        }
        Call::Print { ref text } => {
            bytes.push(text.len() as u8);
            bytes.extend(text);
        }
        Call::SetRow { row: number }
        | Call::SetColumn { column: number }
        | Call::SetScreenMode { mode: number }
        | Call::SetPrintMode { mode: number } => bytes.push(number),
        Call::WriteByte { address, byte } => {
            bytes.extend(address.to_le_bytes());
            bytes.push(byte);
        }
        _ => {}
    }
    bytes.resize(STORED, 0);
    std::array::from_fn(|place| bytes[place])
}

/// From 0 on: times 31 plus the next byte, modulo 2^32, over the record bytes that the reference
/// has fields for and then all of memory.
fn checksum(reference: &Reference) -> u32 {
    let record = reference.record();
    let bytes = IN_REFERENCE.into_iter().flat_map(|part| &record[part]).chain(reference.memory());
    bytes.fold(0, |sum: u32, byte| sum.wrapping_mul(31).wrapping_add(*byte as u32))
}
