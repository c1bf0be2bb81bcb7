//! Why a call of the device is refused: each cause by itself, in the order in which they are tested. The first
//! one gives the answer.

use super::refusals;
use calls::{DeviceCall, DeviceLent, Refusal};

#[derive(Debug, Clone, Copy, PartialEq, Eq)]
pub enum Cause {
    RecordLength,
    MemoryLength,
    RegistersLength,
    PanelLength,
    ImageLength,
    Record,
    Command,
    Status,
    Enable,
    Reset,
    BusyLine,
    BusyEnd,
    BusyFarEnd,
    BusyCount,
    Number,
    NoRegister,
    StatusWritten,
    CommandWritten,
    EnableWritten,
    StartLine,
    StartEnd,
    StartFarEnd,
    StartCount,
    CommandBusy,
    LineBusy,
    FirstByteBusy,
    ByteCountBusy,
    DataNotBusy,
    DriveBusy,
    IdleDriveBusy,
}

/// Those of change request 7: the refusal, the calls that it can befall (write, read, drive), and the cause in
/// words.
type Row = (Cause, Refusal, [bool; 3], &'static str);

const ALL: [bool; 3] = [true; 3];
const WRITE: [bool; 3] = [true, false, false];
const DRIVE: [bool; 3] = [false, false, true];

const TABLE: [Row; 30] = [
    (Cause::RecordLength, Refusal::Lent, DRIVE, "length of the record"),
    (Cause::MemoryLength, Refusal::Lent, DRIVE, "length of memory"),
    (Cause::RegistersLength, Refusal::Lent, ALL, "length of the registers"),
    (Cause::PanelLength, Refusal::Lent, ALL, "length of the panel"),
    (Cause::ImageLength, Refusal::Lent, DRIVE, "length of the image"),
    (Cause::Record, Refusal::State, DRIVE, "the record"),
    (Cause::Command, Refusal::State, ALL, "command above 2"),
    (Cause::Status, Refusal::State, ALL, "status above 3"),
    (Cause::Enable, Refusal::State, ALL, "enable above 1"),
    (Cause::Reset, Refusal::State, ALL, "register 7 not 0"),
    (Cause::BusyLine, Refusal::State, ALL, "busy, line above 79"),
    (Cause::BusyEnd, Refusal::State, ALL, "busy, first byte plus count 21 to 255"),
    (Cause::BusyFarEnd, Refusal::State, ALL, "busy, first byte plus count above 255"),
    (Cause::BusyCount, Refusal::State, ALL, "busy, count 0"),
    (Cause::Number, Refusal::Panel, DRIVE, "number above 3"),
    (Cause::NoRegister, Refusal::Register, [true, true, false], "register above 7"),
    (Cause::StatusWritten, Refusal::Register, WRITE, "write to status"),
    (Cause::CommandWritten, Refusal::Register, WRITE, "command above 2"),
    (Cause::EnableWritten, Refusal::Register, WRITE, "enable above 1"),
    (Cause::StartLine, Refusal::Register, WRITE, "command 2, line above 79"),
    (Cause::StartEnd, Refusal::Register, WRITE, "command 2, first byte plus count 21 to 255"),
    (Cause::StartFarEnd, Refusal::Register, WRITE, "command 2, first byte plus count above 255"),
    (Cause::StartCount, Refusal::Register, WRITE, "command 2, count 0"),
    (Cause::CommandBusy, Refusal::Register, WRITE, "command while busy"),
    (Cause::LineBusy, Refusal::Register, WRITE, "line while busy"),
    (Cause::FirstByteBusy, Refusal::Register, WRITE, "first byte while busy"),
    (Cause::ByteCountBusy, Refusal::Register, WRITE, "byte count while busy"),
    (Cause::DataNotBusy, Refusal::Register, WRITE, "data while not busy"),
    (Cause::DriveBusy, Refusal::Register, DRIVE, "driver call while busy, a line is due"),
    (Cause::IdleDriveBusy, Refusal::Register, DRIVE, "driver call while busy, idle"),
];

impl Cause {
    pub const COUNT: usize = TABLE.len();

    /// All of them, in the order in which they are tested.
    pub fn all() -> impl Iterator<Item = Self> {
        TABLE.into_iter().map(|(cause, ..)| cause)
    }

    pub fn refusal(self) -> Refusal {
        TABLE[self as usize].1
    }

    /// Whether a call can be refused for it.
    pub fn befalls(self, call: &DeviceCall) -> bool {
        TABLE[self as usize].2[call.number()]
    }

    pub fn in_words(self) -> &'static str {
        TABLE[self as usize].3
    }
}

/// Those that hold at once, a bit for each.
#[derive(Debug, Clone, Copy, Default, PartialEq, Eq)]
pub struct Causes(u32);

impl Causes {
    pub fn add(&mut self, cause: Cause, holds: bool) {
        self.0 |= (holds as u32) << cause as u32;
    }

    pub fn first(self) -> Option<Cause> {
        TABLE.get(self.0.trailing_zeros() as usize).map(|row| row.0)
    }

    /// In their order.
    pub fn each(self) -> impl Iterator<Item = Cause> {
        Cause::all().filter(move |cause| self.0 >> *cause as u32 & 1 == 1)
    }
}

/// All that hold for this call on these bytes.
pub fn causes(call: &DeviceCall, lent: &DeviceLent) -> Causes {
    let mut causes = Causes::default();
    match *call {
        DeviceCall::Write { register, value } => refusals::write(lent, register, value, &mut causes),
        DeviceCall::Read { register } => refusals::read(lent, register, &mut causes),
        DeviceCall::Drive { number } => refusals::drive(lent, number, &mut causes),
    }
    causes
}

#[test]
fn every_cause_stands_in_its_place_and_refusals_in_their_order() {
    assert!(Cause::all().enumerate().all(|(place, cause)| cause as usize == place));
    let codes: Vec<u32> = Cause::all().map(|cause| cause.refusal() as u32).collect();
    assert!(codes.is_sorted() && codes[0] == 1 && codes[Cause::COUNT - 1] == 10);
    let mut causes = Causes::default();
    assert_eq!(causes.first(), None);
    causes.add(Cause::Number, true);
    causes.add(Cause::Status, true);
    causes.add(Cause::Record, false);
    assert_eq!(causes.first(), Some(Cause::Status));
    assert_eq!(causes.each().collect::<Vec<_>>(), [Cause::Status, Cause::Number]);
}
