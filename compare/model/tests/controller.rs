//! Change request 7 by its own words: the glass controller.

use calls::register::*;
use calls::{Answer, DeviceBuffers, DeviceCall};

struct Device(DeviceBuffers);

impl Device {
    /// With a panel that is not zero anywhere.
    fn new(registers: [u8; REGISTERS]) -> Self {
        let mut buffers = DeviceBuffers::zero();
        buffers.registers.copy_from_slice(&registers);
        buffers.panel.fill(0x5a);
        Self(buffers)
    }

    fn call(&mut self, call: DeviceCall) -> Answer {
        model::device::answer(&call, self.0.lend())
    }

    /// The code of the answer; a refusal leaves all.
    fn write(&mut self, register: usize, value: u8) -> u32 {
        let before = self.0.clone();
        let answer = self.call(DeviceCall::Write { register: register as u8, value });
        assert_eq!(answer.numbers, [0; 4]);
        assert!(answer.accepted() || self.0 == before, "{value} in register {register}");
        answer.code
    }

    fn accepts(&mut self, writes: &[(usize, u8)]) {
        for (register, value) in writes {
            assert_eq!(self.write(*register, *value), 0, "{value} in register {register}");
        }
    }

    fn read(&mut self, register: usize) -> u32 {
        let answer = self.call(DeviceCall::Read { register: register as u8 });
        assert!(answer.accepted() && answer.numbers[1..] == [0; 3]);
        answer.numbers[0]
    }

    fn registers(&self) -> &[u8] {
        &self.0.registers
    }

    /// The places of the panel that have changed, with what stands there.
    fn changed(&self) -> Vec<(usize, u8)> {
        let bytes = self.0.panel.iter().copied().enumerate();
        bytes.filter(|(_, byte)| *byte != 0x5a).collect()
    }
}

#[test]
fn a_line_of_three_bytes_by_hand() {
    let mut device = Device::new([0; REGISTERS]);
    device.accepts(&[(LINE_NUMBER, 7), (FIRST_BYTE, 4), (BYTE_COUNT, 3), (COMMAND, START)]);
    assert_eq!(device.registers(), [2, 7, 4, 3, 0, 1, 0, 0]);
    device.accepts(&[(DATA, 0x81)]);
    assert_eq!(device.registers(), [2, 7, 5, 2, 0x81, 1, 0, 0]);
    device.accepts(&[(DATA, 0)]);
    assert_eq!(device.registers(), [2, 7, 6, 1, 0, 1, 0, 0]);
    assert_eq!(device.read(STATUS), 1);
    device.accepts(&[(DATA, 0xff)]);
    assert_eq!(device.registers(), [2, 7, 7, 0, 0xff, 0, 0, 0]);
    assert_eq!(device.changed(), [(144, 0x81), (145, 0), (146, 0xff)]);
    assert_eq!(device.write(DATA, 1), 10);
}

#[test]
fn the_last_byte_of_the_panel() {
    let mut device = Device::new([0, 79, 19, 1, 0, 0, 0, 0]);
    device.accepts(&[(COMMAND, START), (DATA, 9)]);
    assert_eq!(device.changed(), [(1599, 9)]);
    assert_eq!(device.registers(), [2, 79, 20, 0, 9, 0, 0, 0]);
}

#[test]
fn reset_while_busy_ends_the_line_and_keeps_the_panel() {
    for value in [0, 1, 255] {
        let mut device = Device::new([2, 3, 5, 2, 0x11, 3, 1, 0]);
        device.accepts(&[(DATA, 0xc3), (RESET, value)]);
        assert_eq!(device.registers(), [0; REGISTERS]);
        assert_eq!(device.changed(), [(65, 0xc3)]);
        assert_eq!(device.write(DATA, 1), 10);
    }
}

/// The enable that counts is the one at the last byte.
#[test]
fn the_interrupt_rises_at_the_last_byte_if_enabled() {
    let start = [(LINE_NUMBER, 1), (BYTE_COUNT, 2), (COMMAND, START), (DATA, 1)];
    let [mut by_last, mut by_first] = [0, 1].map(|enable| Device::new([0, 0, 0, 0, 0, 0, enable, 0]));
    for (device, enable, status) in [(&mut by_last, 1, 2), (&mut by_first, 0, 0)] {
        device.accepts(&start);
        assert_eq!(device.registers()[STATUS], 1);
        device.accepts(&[(ENABLE, enable), (DATA, 2)]);
        assert_eq!(device.registers()[STATUS], status);
        assert_eq!([device.read(STATUS), device.read(STATUS)], [status as u32, 0]);
    }
}

/// Only a read of status, or a reset, takes it away.
#[test]
fn a_pending_interrupt_stays() {
    let mut device = Device::new([0, 0, 0, 1, 0, 2, 0, 0]);
    device.accepts(&[(COMMAND, START)]);
    assert_eq!(device.registers()[STATUS], 3);
    device.accepts(&[(DATA, 1)]);
    assert_eq!(device.registers()[STATUS], 2);
    device.accepts(&[(COMMAND, CLEAR), (ENABLE, 1), (ENABLE, 0), (LINE_NUMBER, 200), (COMMAND, NOTHING)]);
    assert_eq!([DATA, LINE_NUMBER, ENABLE].map(|register| device.read(register)), [1, 200, 0]);
    assert_eq!(device.registers()[STATUS], 2);
    assert_eq!([device.read(STATUS), device.read(STATUS)], [2, 0]);
}

#[test]
fn reading_status_while_busy_keeps_busy() {
    let mut device = Device::new([0, 0, 0, 1, 0, 3, 0, 0]);
    assert_eq!([device.read(STATUS), device.read(STATUS)], [3, 1]);
}

#[test]
fn commands_0_and_1() {
    let mut device = Device::new([2, 99, 98, 97, 96, 2, 1, 0]);
    device.accepts(&[(COMMAND, NOTHING)]);
    assert!(device.changed().is_empty());
    assert_eq!(device.registers(), [0, 99, 98, 97, 96, 2, 1, 0]);
    device.accepts(&[(COMMAND, CLEAR)]);
    assert!(device.0.panel.iter().all(|byte| *byte == 0));
    assert_eq!(device.registers(), [1, 99, 98, 97, 96, 2, 1, 0]);
}

/// First byte plus count is an exact sum: 256 is not 0.
#[test]
fn fields_that_command_2_refuses() {
    for (line, first, count, code) in [
        (79, 19, 1, 0),
        (0, 0, 20, 0),
        (80, 0, 1, 10),
        (255, 0, 1, 10),
        (0, 0, 0, 10),
        (0, 20, 0, 10),
        (0, 20, 1, 10),
        (0, 1, 20, 10),
        (0, 0, 21, 10),
        (0, 255, 1, 10),
        (0, 1, 255, 10),
        (0, 128, 128, 10),
        (0, 255, 20, 10),
        (0, 255, 255, 10),
    ] {
        let mut device = Device::new([0, line, first, count, 0, 0, 0, 0]);
        assert_eq!(device.write(COMMAND, START), code, "{line} {first} {count}");
        // The same fields while busy are STATE, for a reset too.
        let mut busy = Device::new([2, line, first, count, 0, 1, 0, 0]);
        let due = if code == 0 { 0 } else { 2 };
        assert_eq!(busy.call(DeviceCall::Read { register: 0 }).code, due, "{line} {first} {count}");
        assert_eq!(busy.write(RESET, 0), due, "{line} {first} {count}");
    }
}

#[test]
fn writes_that_are_refused() {
    let mut device = Device::new([0, 0, 0, 5, 0, 0, 0, 0]);
    for value in 0..=255 {
        assert_eq!(device.write(STATUS, value), 10);
        assert_eq!(device.write(8, value), 10);
        assert_eq!(device.write(255, value), 10);
        assert_eq!(device.write(DATA, value), 10);
    }
    for value in 3..=255 {
        assert_eq!(device.write(COMMAND, value), 10);
    }
    for value in 2..=255 {
        assert_eq!(device.write(ENABLE, value), 10);
    }
    device.accepts(&[(COMMAND, START)]);
    for (register, value) in (0..4).flat_map(|register| (0..=255).map(move |value| (register, value))) {
        assert_eq!(device.write(register, value), 10, "{value} in register {register}");
    }
    device.accepts(&[(ENABLE, 1), (DATA, 1), (RESET, 7)]);
    for register in 8..=255 {
        let refused = Answer { code: 10, numbers: [0; 4] };
        assert_eq!(device.call(DeviceCall::Read { register }), refused);
    }
}

/// While not busy registers 1 to 3 take any byte.
#[test]
fn any_line_first_byte_and_count_while_not_busy() {
    let mut device = Device::new([0; REGISTERS]);
    for value in 0..=255 {
        device.accepts(&[(LINE_NUMBER, value), (FIRST_BYTE, value), (BYTE_COUNT, value)]);
        assert_eq!(device.registers()[1..4], [value; 3]);
    }
}

#[test]
fn state() {
    for (register, most) in [(COMMAND, 2), (STATUS, 3), (ENABLE, 1), (RESET, 0)] {
        for value in 0..=255 {
            // Fields that let a line be busy.
            let mut registers = [0, 0, 0, 1, 0, 0, 0, 0];
            registers[register] = value;
            let due = if value > most { 2 } else { 0 };
            let mut device = Device::new(registers);
            assert_eq!(device.call(DeviceCall::Read { register: 1 }).code, due, "{value} in {register}");
            assert_eq!(device.write(RESET, 0), due, "{value} in {register}");
        }
    }
    // Busy with another command than 2 passes.
    assert_eq!(Device::new([0, 0, 0, 1, 0, 1, 0, 0]).write(DATA, 1), 0);
}

/// LENT, then STATE, then REGISTER.
#[test]
fn refusals_in_their_order() {
    let bad = [3, 80, 0, 0, 0, 255, 2, 1];
    for call in [DeviceCall::Write { register: 9, value: 0 }, DeviceCall::Read { register: 9 }] {
        for (registers_len, panel_len) in [(7, 1600), (9, 1600), (0, 1600), (8, 1599), (8, 1601), (8, 0)] {
            let mut device = Device::new(bad);
            device.0.registers.resize(registers_len, 0);
            device.0.panel.resize(panel_len, 0);
            let before = device.0.clone();
            assert_eq!(device.call(call).code, 1);
            assert!(device.0 == before);
        }
        assert_eq!(Device::new(bad).call(call).code, 2);
        assert_eq!(Device::new([0; REGISTERS]).call(call).code, 10);
    }
}
