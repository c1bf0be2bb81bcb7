//! Reads and writes of the glass controller's registers.

use calls::layout::{LINE, PANEL};
use calls::register::*;

/// All tests, then the write: its code.
pub fn write(registers: &mut [u8], panel: &mut [u8], register: u8, value: u8) -> u32 {
    let code = entry(registers, panel);
    if code != 0 {
        return code;
    }
    let busy = registers[STATUS] & BUSY != 0;
    let register = register as usize;
    let taken = match register {
        COMMAND => !busy && (value < START || value == START && can_start(registers)),
        LINE_NUMBER | FIRST_BYTE | BYTE_COUNT => !busy,
        DATA => busy,
        ENABLE => value <= 1,
        _ => register == RESET,
    };
    if !taken {
        return 10;
    }
    registers[register] = value;
    match register {
        COMMAND if value == CLEAR => panel.fill(0),
        COMMAND if value == START => registers[STATUS] |= BUSY,
        DATA => store(registers, panel, value),
        RESET => registers.fill(0),
        _ => {}
    }
    0
}

fn store(registers: &mut [u8], panel: &mut [u8], byte: u8) {
    panel[LINE * registers[LINE_NUMBER] as usize + registers[FIRST_BYTE] as usize] = byte;
    registers[FIRST_BYTE] += 1;
    registers[BYTE_COUNT] -= 1;
    if registers[BYTE_COUNT] == 0 {
        registers[STATUS] = registers[STATUS] & !BUSY | registers[ENABLE] << 1;
    }
}

/// All tests, then the read: code and value.
pub fn read(registers: &mut [u8], panel: &[u8], register: u8) -> [u32; 2] {
    let code = entry(registers, panel);
    if code != 0 {
        return [code, 0];
    }
    let register = register as usize;
    if register >= REGISTERS {
        return [10, 0];
    }
    let value = registers[register];
    if register == STATUS {
        registers[STATUS] = value & !INTERRUPT;
    }
    [0, value as u32]
}

/// The tests of LENT and STATE.
fn entry(registers: &[u8], panel: &[u8]) -> u32 {
    if registers.len() != REGISTERS || panel.len() != PANEL {
        return 1;
    }
    let sound = registers[COMMAND] <= START
        && registers[STATUS] <= BUSY | INTERRUPT
        && registers[ENABLE] <= 1
        && registers[RESET] == 0
        && (registers[STATUS] & BUSY == 0 || can_start(registers));
    if sound { 0 } else { 2 }
}

fn can_start(registers: &[u8]) -> bool {
    let (first, count) = (registers[FIRST_BYTE] as usize, registers[BYTE_COUNT] as usize);
    registers[LINE_NUMBER] < 80 && count >= 1 && first + count <= LINE
}
