//! Stand-in for `emulator_6502`: a processor that does nothing. No compared call runs it.

pub trait Interface6502 {
    fn read(&mut self, address: u16) -> u8;
    fn write(&mut self, address: u16, data: u8);
}

pub struct MOS6502;

impl MOS6502 {
    #[expect(clippy::new_without_default)]
    pub fn new() -> Self {
        Self
    }

    pub fn execute_instruction(&mut self, _interface: &mut impl Interface6502) {}

    pub fn set_program_counter(&mut self, _address: u16) {}

    pub fn get_program_counter(&self) -> u16 {
        0
    }

    pub fn get_stack_pointer(&self) -> u8 {
        0
    }

    pub fn set_status_register(&mut self, _status: u8) {}

    pub fn get_status_register(&self) -> u8 {
        0
    }

    pub fn get_accumulator(&self) -> u8 {
        0
    }

    pub fn get_x_register(&self) -> u8 {
        0
    }
}
