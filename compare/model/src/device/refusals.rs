//! The tests LENT, STATE, PANEL and REGISTER of the device's calls, each cause by itself.

use super::cause::{Cause, Causes};
use crate::record::Record;
use calls::DeviceLent;
use calls::layout::{HEIGHT, LINE, MEMORY, PANEL, PANELS, RECORD};
use calls::register::*;

pub fn write(lent: &DeviceLent, register: u8, value: u8, causes: &mut Causes) {
    let registers = device(lent, causes);
    causes.add(Cause::NoRegister, register as usize >= REGISTERS);
    causes.add(Cause::StatusWritten, register as usize == STATUS);
    causes.add(Cause::CommandWritten, register as usize == COMMAND && value > START);
    causes.add(Cause::EnableWritten, register as usize == ENABLE && value > 1);
    let Some(registers) = registers else { return };
    if (register as usize, value) == (COMMAND, START) {
        let start = [Cause::StartLine, Cause::StartEnd, Cause::StartFarEnd, Cause::StartCount];
        add_fields(registers, start, causes);
    }
    let while_busy = [Cause::CommandBusy, Cause::LineBusy, Cause::FirstByteBusy, Cause::ByteCountBusy];
    if let Some(cause) = while_busy.get(register as usize) {
        causes.add(*cause, busy(registers));
    }
    causes.add(Cause::DataNotBusy, register as usize == DATA && !busy(registers));
}

pub fn read(lent: &DeviceLent, register: u8, causes: &mut Causes) {
    device(lent, causes);
    causes.add(Cause::NoRegister, register as usize >= REGISTERS);
}

pub fn drive(lent: &DeviceLent, number: u8, causes: &mut Causes) {
    causes.add(Cause::RecordLength, lent.record.len() != RECORD);
    causes.add(Cause::MemoryLength, lent.memory.len() != MEMORY);
    causes.add(Cause::ImageLength, lent.image.len() != PANEL);
    let registers = device(lent, causes);
    causes.add(Cause::Number, number as usize >= PANELS);
    let record = (lent.record.len() == RECORD).then(|| Record::read(lent.record));
    causes.add(Cause::Record, record == Some(None));
    if registers.is_some_and(busy) {
        let idle = record.flatten().is_some_and(|mut record| is_idle(&mut record, number));
        causes.add(if idle { Cause::IdleDriveBusy } else { Cause::DriveBusy }, true);
    }
}

/// LENT and STATE of registers and panel; the registers, if they have their length.
fn device<'a>(lent: &'a DeviceLent, causes: &mut Causes) -> Option<&'a [u8]> {
    let registers = &*lent.registers;
    causes.add(Cause::PanelLength, lent.panel.len() != PANEL);
    if registers.len() != REGISTERS {
        causes.add(Cause::RegistersLength, true);
        return None;
    }
    causes.add(Cause::Command, registers[COMMAND] > START);
    causes.add(Cause::Status, registers[STATUS] > BUSY + INTERRUPT);
    causes.add(Cause::Enable, registers[ENABLE] > 1);
    causes.add(Cause::Reset, registers[RESET] != 0);
    if busy(registers) {
        let fields = [Cause::BusyLine, Cause::BusyEnd, Cause::BusyFarEnd, Cause::BusyCount];
        add_fields(registers, fields, causes);
    }
    Some(registers)
}

fn busy(registers: &[u8]) -> bool {
    registers[STATUS] & BUSY != 0
}

/// What keeps command 2 from starting a line: the line, where it would end, or its count.
fn add_fields(registers: &[u8], [line, end, far_end, count]: [Cause; 4], causes: &mut Causes) {
    let sum = registers[FIRST_BYTE] as usize + registers[BYTE_COUNT] as usize;
    causes.add(line, registers[LINE_NUMBER] as usize >= HEIGHT);
    causes.add(end, (LINE + 1..256).contains(&sum));
    causes.add(far_end, sum >= 256);
    causes.add(count, registers[BYTE_COUNT] == 0);
}

/// Whether a send to this panel would be idle.
fn is_idle(record: &mut Record, number: u8) -> bool {
    (number as usize) < PANELS && record.take_line(number as usize).is_none()
}
