//! What an accepted call of the device is due to leave, from the bytes before it: a second reading of change
//! request 7, apart from the model.

use crate::judge::Difference;
use crate::judge::area::span;
use calls::layout::{GRAPHICS_BASE, LINE, SCREEN, word};
use calls::register::REGISTERS;
use calls::{Answer, DeviceBuffers, DeviceCall};

/// Let these bytes become what the call is due to leave. The record of a driver call is left: it is held to a
/// direct send. An error where the call should have been refused, or should have answered something else.
pub fn apply(
    call: &DeviceCall,
    answer: &Answer,
    memory: &[u8],
    bytes: &mut DeviceBuffers,
) -> Result<(), Difference> {
    let registers: [u8; REGISTERS] = std::array::from_fn(|register| bytes.registers[register]);
    let due = match *call {
        _ if !is_sound(registers) => None,
        DeviceCall::Write { register, value } => {
            takes(registers, register, value).then(|| write(bytes, register as usize, value))
        }
        DeviceCall::Read { register } => (register < 8).then(|| read(bytes, register as usize)),
        DeviceCall::Drive { number } => {
            let taken = number < 4 && !is_busy(registers);
            taken.then(|| drive(bytes, answer.numbers, memory))
        }
    };
    match due {
        None => Err(Difference::new(format!("accepted with the registers {registers:?}"))),
        Some(numbers) if numbers != answer.numbers => {
            let found = answer.numbers;
            Err(Difference::new(format!("answers {found:?}, due is {numbers:?}, from {registers:?}")))
        }
        Some(_) => Ok(()),
    }
}

fn is_busy(registers: [u8; REGISTERS]) -> bool {
    registers[5] % 2 == 1
}

fn can_start(registers: [u8; REGISTERS]) -> bool {
    let [_, line, first, count, ..] = registers;
    line <= 79 && (1..=20).contains(&count) && first <= 20 - count
}

fn is_sound(registers: [u8; REGISTERS]) -> bool {
    let [command, _, _, _, _, status, enable, reset] = registers;
    command < 3 && status < 4 && enable < 2 && reset == 0 && (!is_busy(registers) || can_start(registers))
}

/// Whether such registers take this write.
fn takes(registers: [u8; REGISTERS], register: u8, value: u8) -> bool {
    match register {
        0 => !is_busy(registers) && (value < 2 || value == 2 && can_start(registers)),
        1..=3 => !is_busy(registers),
        4 => is_busy(registers),
        6 => value < 2,
        7 => true,
        _ => false,
    }
}

fn write(bytes: &mut DeviceBuffers, register: usize, value: u8) -> [u32; 4] {
    let DeviceBuffers { registers, panel, .. } = bytes;
    registers[register] = value;
    match (register, value) {
        (0, 1) => panel.iter_mut().for_each(|byte| *byte = 0),
        (0, 2) => registers[5] += 1,
        (4, _) => {
            panel[20 * registers[1] as usize + registers[2] as usize] = value;
            registers[2] += 1;
            registers[3] -= 1;
            if registers[3] == 0 {
                registers[5] = status_after_line(registers[5] - 1, registers[6]);
            }
        }
        (7, _) => registers.copy_from_slice(&[0; REGISTERS]),
        _ => {}
    }
    [0; 4]
}

/// From the status without busy.
fn status_after_line(status: u8, enable: u8) -> u8 {
    if enable == 1 { 2 } else { status }
}

fn read(bytes: &mut DeviceBuffers, register: usize) -> [u32; 4] {
    let value = bytes.registers[register];
    if register == 5 {
        bytes.registers[5] = value % 2;
    }
    [value as u32, 0, 0, 0]
}

/// What a line leaves that a send answers so; nothing for idle.
fn drive(bytes: &mut DeviceBuffers, numbers: [u32; 4], memory: &[u8]) -> [u32; 4] {
    let [sent, line, left, right] = numbers;
    if sent == 0 {
        return [0; 4];
    }
    let start = line as usize * LINE;
    let screen = &memory[word(&bytes.record, GRAPHICS_BASE) as usize..][..SCREEN];
    let mut last = 0;
    for (byte, mask) in span(left, right - 1).bits().into_iter().enumerate().filter(|(_, mask)| *mask != 0) {
        let place = start + byte;
        let shown = screen[place] & mask | bytes.image[place] & !mask;
        (bytes.image[place], bytes.panel[place]) = (shown, shown);
        last = byte;
    }
    let [.., status, enable, _] = bytes.registers[..] else { unreachable!("eight registers") };
    let status = status_after_line(status, enable);
    let data = bytes.panel[start + last];
    bytes.registers.copy_from_slice(&[2, line as u8, last as u8 + 1, 0, data, status, enable, 0]);
    numbers
}
