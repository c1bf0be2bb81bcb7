//! The line driver: a send whose line goes through the device, by writes that any host could make.

use super::answer;
use crate::canvas::{get_bit, set_bit};
use crate::record::Record;
use crate::rect::Rect;
use crate::send::sent;
use calls::layout::LINE;
use calls::register::*;
use calls::{DeviceCall, DeviceLent};

/// An accepted call: what it answers, and the lent bytes as it leaves them.
pub fn drive(mut lent: DeviceLent, panel: usize) -> [u32; 4] {
    let mut record = Record::read(lent.record).expect("STATE let it pass");
    let line = record.take_line(panel);
    if let Some(line) = &line {
        drive_line(&record, &mut lent, line);
    }
    record.write(lent.record);
    sent(&line)
}

/// Registers 1 to 3, the command, and each byte that holds a pixel of the line.
fn drive_line(record: &Record, lent: &mut DeviceLent, line: &Rect) {
    let (first, end) = (line.left / 8, (line.right - 1) / 8 + 1);
    write(lent, LINE_NUMBER, line.top as u8);
    write(lent, FIRST_BYTE, first as u8);
    write(lent, BYTE_COUNT, (end - first) as u8);
    write(lent, COMMAND, START);
    for byte in first..end {
        let place = LINE * line.top + byte;
        lent.image[place] = joined(record.screen(lent.memory), lent.image, line, byte);
        write(lent, DATA, lent.image[place]);
    }
}

/// A byte of the line: its pixels from the screen, the others from the image.
fn joined(screen: &[u8], image: &[u8], line: &Rect, byte: usize) -> u8 {
    let mut joined = [0];
    for x in 8 * byte..8 * byte + 8 {
        let from = if (line.left..line.right).contains(&x) { screen } else { image };
        set_bit(&mut joined, x % 8, 0, get_bit(from, x, line.top));
    }
    joined[0]
}

/// One of the device's own writes.
fn write(lent: &mut DeviceLent, register: usize, value: u8) {
    let DeviceLent { record, memory, registers, panel, image } = lent;
    let lent = DeviceLent { record, memory, registers, panel, image };
    let answer = answer(&DeviceCall::Write { register: register as u8, value }, lent);
    assert!(answer.accepted(), "the device refuses {value} in register {register}");
}
