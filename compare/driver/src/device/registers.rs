//! Registers of every sort: sound ones, busy or not, and such as STATE refuses.

use crate::random::Random;
use calls::register::*;

/// One thing that is broken in registers.
type Broken = fn(&mut Random, &mut [u8; REGISTERS]);

/// What STATE refuses in any registers.
const BYTES: [Broken; 4] = [
    |random, registers| registers[COMMAND] = random.above(2),
    |random, registers| registers[STATUS] = random.above(3),
    |random, registers| registers[ENABLE] = random.above(1),
    |random, registers| registers[RESET] = random.above(0),
];

/// What command 2 refuses, and STATE while busy: the line, a first byte plus count of 21 to 255, one above 255, a
/// count of 0.
const FIELDS: [Broken; 4] = [
    |random, registers| registers[LINE_NUMBER] = random.above(79),
    |random, registers| {
        let sum = random.above(20);
        registers[BYTE_COUNT] = 1 + random.below(sum as usize) as u8;
        registers[FIRST_BYTE] = sum - registers[BYTE_COUNT];
    },
    |random, registers| {
        registers[BYTE_COUNT] = 1 + random.below(255) as u8;
        registers[FIRST_BYTE] = (256 - registers[BYTE_COUNT] as usize + random.below(3)).min(255) as u8;
    },
    |random, registers| (registers[BYTE_COUNT], registers[FIRST_BYTE]) = (0, random.below(21) as u8),
];

impl Random {
    /// A byte above the limit: the next one, the last one, or any.
    pub fn above(&mut self, limit: u8) -> u8 {
        match self.below(4) {
            0 => limit + 1,
            1 => 255,
            _ => limit + 1 + self.below(255 - limit as usize) as u8,
        }
    }

    /// Registers that STATE lets pass; some hold a line that command 2 takes, some are busy with it.
    pub fn sound_registers(&mut self) -> [u8; REGISTERS] {
        let mut registers = self.registers_with_line();
        if self.one_in(3) {
            registers[LINE_NUMBER] = self.line_number();
            registers[FIRST_BYTE] = self.first_byte();
            registers[BYTE_COUNT] = self.byte_count();
        } else if self.one_in(2) {
            registers[STATUS] |= BUSY;
        }
        registers
    }

    /// Registers of any sort: sound, broken in one way or in several, or of any bytes.
    pub fn any_registers(&mut self) -> [u8; REGISTERS] {
        if self.one_in(16) {
            return std::array::from_fn(|_| self.byte());
        }
        if self.one_in(3) {
            return self.sound_registers();
        }
        let mut registers =
            if self.one_in(2) { self.registers_with_line() } else { self.busy_with_bad_fields() };
        if registers[STATUS] & BUSY == 0 || self.one_in(8) {
            self.pick(&BYTES)(self, &mut registers);
        }
        registers
    }

    fn busy_with_bad_fields(&mut self) -> [u8; REGISTERS] {
        let mut registers = self.with_bad_fields();
        registers[STATUS] |= BUSY;
        registers
    }

    /// Not busy, with fields that command 2 refuses for one cause.
    pub fn with_bad_fields(&mut self) -> [u8; REGISTERS] {
        let mut registers = self.registers_with_line();
        self.pick(&FIELDS)(self, &mut registers);
        registers
    }

    /// Not busy, with fields that command 2 takes.
    fn registers_with_line(&mut self) -> [u8; REGISTERS] {
        let [line, first, count] = self.line_fields();
        let status = self.pick(&[0, INTERRUPT]);
        [self.below(3) as u8, line, first, count, self.byte(), status, self.below(2) as u8, 0]
    }

    /// Line, first byte and count that command 2 takes. Short lines are more frequent: they end sooner.
    pub fn line_fields(&mut self) -> [u8; 3] {
        let line = if self.one_in(4) { self.pick(&[0, 79]) } else { self.below(80) as u8 };
        let count = match self.below(8) {
            0 => 20,
            1 => 1 + self.below(20),
            2..5 => 1,
            _ => 2 + self.below(3),
        };
        let first = if self.one_in(3) { 20 - count } else { self.below(21 - count) };
        [line, first as u8, count as u8]
    }

    /// Mostly one that there is.
    pub fn register_number(&mut self) -> u8 {
        match self.below(32) {
            0..3 => self.pick(&[8, 9, 15, 16, 127, 128, 255]),
            3 => self.byte(),
            _ => self.below(REGISTERS) as u8,
        }
    }

    /// A byte for this register, around its limits.
    pub fn register_value(&mut self, register: u8) -> u8 {
        match register as usize {
            COMMAND => {
                if self.one_in(6) {
                    self.above(2)
                } else {
                    self.pick(&[0, 1, 2, 2, 2, 2])
                }
            }
            LINE_NUMBER => self.line_number(),
            FIRST_BYTE => self.first_byte(),
            BYTE_COUNT => self.byte_count(),
            ENABLE => {
                if self.one_in(6) {
                    self.above(1)
                } else {
                    self.below(2) as u8
                }
            }
            STATUS => self.pick(&[0, 1, 2, 3, 4, 255]),
            _ => self.byte(),
        }
    }

    fn line_number(&mut self) -> u8 {
        match self.below(8) {
            0..2 => self.pick(&[0, 78, 79]),
            2 => self.above(79),
            _ => self.below(80) as u8,
        }
    }

    fn first_byte(&mut self) -> u8 {
        match self.below(8) {
            0..2 => self.pick(&[0, 1, 18, 19, 20, 21]),
            2 => self.pick(&[235, 236, 254, 255]),
            3 => self.byte(),
            _ => self.below(20) as u8,
        }
    }

    fn byte_count(&mut self) -> u8 {
        match self.below(8) {
            0..2 => self.pick(&[0, 1, 19, 20, 21]),
            2 => self.pick(&[236, 254, 255]),
            3 => self.byte(),
            _ => 1 + self.below(6) as u8,
        }
    }
}

#[cfg(test)]
mod tests {
    use super::*;
    use calls::{DeviceBuffers, DeviceCall};
    use model::device::causes;

    fn code(registers: [u8; REGISTERS]) -> u32 {
        let mut buffers = DeviceBuffers::zero();
        buffers.registers.copy_from_slice(&registers);
        let found = causes(&DeviceCall::Read { register: 0 }, &buffers.lend()).first();
        found.map_or(0, |cause| cause.refusal() as u32)
    }

    #[test]
    fn sound_registers_pass_and_broken_ones_do_not() {
        let mut random = Random::new(1);
        for _ in 0..2_000 {
            assert_eq!(code(random.sound_registers()), 0);
        }
        for (place, broken) in BYTES.iter().chain(&FIELDS).enumerate() {
            for _ in 0..500 {
                let mut registers = [0, 0, 0, 1, 0, BUSY, 0, 0];
                broken(&mut random, &mut registers);
                assert_eq!(code(registers), 2, "{place}: {registers:?}");
            }
        }
    }

    #[test]
    fn command_2_takes_the_fields_of_a_line() {
        let mut random = Random::new(1);
        for _ in 0..2_000 {
            let [line, first, count] = random.line_fields();
            assert!(line < 80 && count > 0 && first + count <= 20);
        }
    }
}
