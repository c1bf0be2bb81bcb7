//! What accepted reads and writes of the registers do.

use calls::layout::LINE;
use calls::register::*;

pub struct Controller<'a> {
    pub registers: &'a mut [u8],
    pub panel: &'a mut [u8],
}

impl Controller<'_> {
    /// The byte stays in its register, and then the write does its work. One to the reset register leaves
    /// zeros in all of them, and with that no line.
    pub fn write(&mut self, register: usize, value: u8) {
        if register == RESET {
            self.registers.fill(0);
            return;
        }
        self.registers[register] = value;
        match (register, value) {
            (COMMAND, CLEAR) => self.panel.fill(0),
            (COMMAND, START) => self.registers[STATUS] |= BUSY,
            (DATA, byte) => self.store(byte),
            _ => {}
        }
    }

    /// One byte of the line that was started.
    fn store(&mut self, byte: u8) {
        let [line, first] = [LINE_NUMBER, FIRST_BYTE].map(|register| self.registers[register] as usize);
        self.panel[LINE * line + first] = byte;
        self.registers[FIRST_BYTE] += 1;
        self.registers[BYTE_COUNT] -= 1;
        if self.registers[BYTE_COUNT] == 0 {
            self.finish();
        }
    }

    fn finish(&mut self) {
        self.registers[STATUS] &= !BUSY;
        if self.registers[ENABLE] == 1 {
            self.registers[STATUS] |= INTERRUPT;
        }
    }

    /// Reading status takes the interrupt away.
    pub fn read(&mut self, register: usize) -> u8 {
        let value = self.registers[register];
        if register == STATUS {
            self.registers[STATUS] &= !INTERRUPT;
        }
        value
    }
}
