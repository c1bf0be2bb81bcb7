//! What accepted calls of the device meet, to see that a run has enough of everything.

use calls::layout::{GRAPHICS_BASE, LINE, SCREEN, word};
use calls::register::*;
use calls::{Answer, DeviceBuffers, DeviceCall};

#[derive(Debug, Clone, Copy, PartialEq, Eq)]
pub enum Event {
    Nothing,
    Clear,
    Start,
    StartPending,
    Line,
    FirstByte,
    ByteCount,
    Data,
    LastData,
    LastDataPending,
    LastDataEnabled,
    LastDataBoth,
    Enable,
    EnableBusy,
    Reset,
    ResetBusy,
    Status0,
    Status1,
    Status2,
    Status3,
    Register,
    RegisterBusy,
    Idle,
    IdlePending,
    OneByte,
    SomeBytes,
    WholeLine,
    LeftEdge,
    RightEdge,
    EdgeNotScreen,
    EdgeNotPanel,
    Driven,
    DrivenPending,
    DrivenEnabled,
    DrivenLevel,
    DrivenLevelEdge,
}

/// In their order: in words, each beginning with the call.
pub const EVENTS: [(Event, &str); 36] = [
    (Event::Nothing, "write: command 0"),
    (Event::Clear, "write: command 1"),
    (Event::Start, "write: command 2"),
    (Event::StartPending, "write: command 2 with an interrupt pending"),
    (Event::Line, "write: line"),
    (Event::FirstByte, "write: first byte"),
    (Event::ByteCount, "write: byte count"),
    (Event::Data, "write: data before the last byte"),
    (Event::LastData, "write: last byte, not enabled"),
    (Event::LastDataPending, "write: last byte, not enabled, an interrupt pending"),
    (Event::LastDataEnabled, "write: last byte, enabled"),
    (Event::LastDataBoth, "write: last byte, enabled, an interrupt pending"),
    (Event::Enable, "write: enable"),
    (Event::EnableBusy, "write: enable while busy"),
    (Event::Reset, "write: reset"),
    (Event::ResetBusy, "write: reset while busy"),
    (Event::Status0, "read: status 0"),
    (Event::Status1, "read: status 1, busy"),
    (Event::Status2, "read: status 2, interrupt"),
    (Event::Status3, "read: status 3, both"),
    (Event::Register, "read: another register"),
    (Event::RegisterBusy, "read: another register while busy"),
    (Event::Idle, "drive: idle"),
    (Event::IdlePending, "drive: idle, an interrupt pending"),
    (Event::OneByte, "drive: a line of one byte"),
    (Event::SomeBytes, "drive: a line of 2 to 19 bytes"),
    (Event::WholeLine, "drive: a line of 20 bytes"),
    (Event::LeftEdge, "drive: starts within a byte"),
    (Event::RightEdge, "drive: ends within a byte"),
    (Event::EdgeNotScreen, "drive: edge bits of image and screen differ"),
    (Event::EdgeNotPanel, "drive: edge bits of image and panel differ"),
    (Event::Driven, "drive: a line, not enabled"),
    (Event::DrivenPending, "drive: a line, not enabled, an interrupt pending"),
    (Event::DrivenEnabled, "drive: a line, enabled"),
    (Event::DrivenLevel, "drive: from equal panels, held to the panel of a direct send"),
    (Event::DrivenLevelEdge, "drive: from equal panels, with edge bits"),
];

/// Tell what an accepted call meets. It finds these bytes; `level` says that panel and image are held to those
/// of a direct send.
pub fn met(
    call: &DeviceCall,
    answer: &Answer,
    before: &DeviceBuffers,
    memory: &[u8],
    level: bool,
    mut tell: impl FnMut(Event),
) {
    match *call {
        DeviceCall::Write { register, value } => tell(written(&before.registers, register, value)),
        DeviceCall::Read { register } => tell(read(&before.registers, register)),
        DeviceCall::Drive { .. } if answer.numbers[0] == 0 => {
            let pending = before.registers[STATUS] & INTERRUPT != 0;
            tell(if pending { Event::IdlePending } else { Event::Idle });
        }
        DeviceCall::Drive { .. } => {
            let [_, line, left, right] = answer.numbers.map(|number| number as usize);
            driven([line, left, right], before, memory, level, tell);
        }
    }
}

fn written(registers: &[u8], register: u8, value: u8) -> Event {
    let [busy, pending] = [BUSY, INTERRUPT].map(|bit| registers[STATUS] & bit != 0);
    match (register as usize, value) {
        (COMMAND, NOTHING) => Event::Nothing,
        (COMMAND, CLEAR) => Event::Clear,
        (COMMAND, _) if pending => Event::StartPending,
        (COMMAND, _) => Event::Start,
        (LINE_NUMBER, _) => Event::Line,
        (FIRST_BYTE, _) => Event::FirstByte,
        (BYTE_COUNT, _) => Event::ByteCount,
        (ENABLE, _) => {
            if busy {
                Event::EnableBusy
            } else {
                Event::Enable
            }
        }
        (RESET, _) => {
            if busy {
                Event::ResetBusy
            } else {
                Event::Reset
            }
        }
        _ if registers[BYTE_COUNT] > 1 => Event::Data,
        _ => match (registers[ENABLE] == 1, pending) {
            (false, false) => Event::LastData,
            (false, true) => Event::LastDataPending,
            (true, false) => Event::LastDataEnabled,
            (true, true) => Event::LastDataBoth,
        },
    }
}

fn read(registers: &[u8], register: u8) -> Event {
    let status = registers[STATUS];
    match (register as usize == STATUS, status) {
        (true, 0) => Event::Status0,
        (true, 1) => Event::Status1,
        (true, 2) => Event::Status2,
        (true, _) => Event::Status3,
        (false, _) => {
            if status & BUSY != 0 {
                Event::RegisterBusy
            } else {
                Event::Register
            }
        }
    }
}

/// A line, and its pixels from left to right.
fn driven(
    [line, left, right]: [usize; 3],
    before: &DeviceBuffers,
    memory: &[u8],
    level: bool,
    mut tell: impl FnMut(Event),
) {
    tell(match (right - 1) / 8 - left / 8 {
        0 => Event::OneByte,
        19 => Event::WholeLine,
        _ => Event::SomeBytes,
    });
    tell(match (before.registers[ENABLE], before.registers[STATUS]) {
        (1, _) => Event::DrivenEnabled,
        (_, 0) => Event::Driven,
        _ => Event::DrivenPending,
    });
    let (starts_within, ends_within) = (left % 8 != 0, right % 8 != 0);
    let screen = &memory[word(&before.record, GRAPHICS_BASE) as usize..][..SCREEN];
    let edges = edge_bits(line, left, right);
    let differ =
        |one: &[u8]| edges.iter().any(|(place, mask)| (one[*place] ^ before.image[*place]) & mask != 0);
    for (event, is_met) in [
        (Event::LeftEdge, starts_within),
        (Event::RightEdge, ends_within),
        (Event::EdgeNotScreen, differ(screen)),
        (Event::EdgeNotPanel, differ(&before.panel)),
        (Event::DrivenLevel, level),
        (Event::DrivenLevelEdge, level && (starts_within || ends_within)),
    ] {
        if is_met {
            tell(event);
        }
    }
}

/// The first and the last byte of a line, with the bits that are none of its pixels.
fn edge_bits(line: usize, left: usize, right: usize) -> [(usize, u8); 2] {
    let last = right - 1;
    let before = !(0xff >> (left % 8));
    let after = 0x7f >> (last % 8);
    let start = LINE * line;
    if left / 8 == last / 8 {
        return [(start + left / 8, before | after), (start, 0)];
    }
    [(start + left / 8, before), (start + last / 8, after)]
}

#[test]
fn events_stand_in_their_places() {
    assert!(EVENTS.iter().enumerate().all(|(place, (event, _))| *event as usize == place));
}

#[test]
fn bits_beside_a_line() {
    assert_eq!(edge_bits(2, 3, 21), [(40, 0b1110_0000), (42, 0b0000_0111)]);
    assert_eq!(edge_bits(0, 9, 15), [(1, 0b1000_0001), (0, 0)]);
    assert_eq!(edge_bits(79, 0, 160), [(1580, 0), (1599, 0)]);
    assert_eq!(edge_bits(1, 159, 160), [(39, 0b1111_1110), (20, 0)]);
}
