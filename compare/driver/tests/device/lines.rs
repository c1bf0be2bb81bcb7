//! Faults of the line driver.

use super::{again, assert_found, is_drive, spoiled};
use calls::layout::*;
use calls::register::*;
use calls::{Answer, Call, DeviceCall, DeviceLent, Lent, Refusal};
use model::device::{Cause, causes};

/// A driver made of the device's writes, as the model's is but for its choices.
struct Way {
    /// First byte and end of what is written of a line, by its first pixel and the one after its last.
    bytes: fn(usize, usize) -> [usize; 2],
    /// The byte that is written, of screen, image and panel, with the line's pixels in it as a mask.
    byte: fn([u8; 3], u8) -> u8,
    /// What the image gets of a written byte, of itself before and that byte, with the same mask.
    kept: fn(u8, u8, u8) -> u8,
}

const RIGHT: Way = Way {
    bytes: |left, right| [left / 8, (right - 1) / 8 + 1],
    byte: |[screen, image, _], mask| screen & mask | image & !mask,
    kept: |_, byte, _| byte,
};

/// The line's pixels in this byte of it.
fn mask(byte: usize, left: usize, right: usize) -> u8 {
    (0..8).filter(|bit| (left..right).contains(&(8 * byte + bit))).map(|bit| 0x80 >> bit).sum()
}

fn write(lent: &mut DeviceLent, register: usize, value: usize) {
    let call = DeviceCall::Write { register: register as u8, value: value as u8 };
    assert!(model::device::answer(&call, again(lent)).accepted());
}

/// The model, with an accepted driver call made this way.
fn driven(call: &DeviceCall, mut lent: DeviceLent, way: &Way) -> Answer {
    let DeviceCall::Drive { number } = *call else { return model::device::answer(call, lent) };
    if causes(call, &lent).first().is_some() {
        return model::device::answer(call, lent);
    }
    let mut beside = vec![0; PANEL];
    let send = Lent { record: lent.record, memory: lent.memory, panel: &mut beside };
    let answer = model::answer(&Call::Send { number }, send);
    if let [1, line, left, right] = answer.numbers.map(|number| number as usize) {
        drive_line(&mut lent, [line, left, right], way);
    }
    answer
}

fn drive_line(lent: &mut DeviceLent, [line, left, right]: [usize; 3], way: &Way) {
    let base = word(lent.record, GRAPHICS_BASE) as usize;
    let [first, end] = (way.bytes)(left, right);
    for (register, value) in
        [(LINE_NUMBER, line), (FIRST_BYTE, first), (BYTE_COUNT, end - first), (COMMAND, 2)]
    {
        write(lent, register, value);
    }
    for byte in first..end {
        let place = LINE * line + byte;
        let (image, mask) = (lent.image[place], mask(byte, left, right));
        let written = (way.byte)([lent.memory[base + place], image, lent.panel[place]], mask);
        write(lent, DATA, written as usize);
        lent.image[place] = (way.kept)(image, written, mask);
    }
}

#[test]
fn the_right_way_is_no_fault() {
    let device = |call: &DeviceCall, lent: DeviceLent| Some(driven(call, lent, &RIGHT));
    let core = driver::device::judge::Core { device, screen: super::SCREEN };
    assert!(super::found(|| driver::device::judge::Judge::new(Some(core))).is_none());
}

#[test]
fn whole_lines_instead_of_the_lines_bytes() {
    const FROM_IMAGE: Way = Way { bytes: |_, _| [0, 20], ..RIGHT };
    const FROM_SCREEN: Way = Way { bytes: |_, _| [0, 20], byte: |[screen, ..], _| screen, ..RIGHT };
    assert_both_found!(driven(&FROM_IMAGE), 5);
    assert_both_found!(driven(&FROM_SCREEN), 5);
}

#[test]
fn a_byte_too_few_or_too_many() {
    const MORE_AT_THE_END: Way = Way { bytes: |left, right| [left / 8, (right / 8 + 1).min(20)], ..RIGHT };
    const FEWER_AT_THE_END: Way =
        Way { bytes: |left, right| [left / 8, (right / 8).max(left / 8 + 1)], ..RIGHT };
    const FEWER_AT_THE_START: Way =
        Way { bytes: |left, right| [left.div_ceil(8).min((right - 1) / 8), (right - 1) / 8 + 1], ..RIGHT };
    assert_both_found!(driven(&MORE_AT_THE_END), 5);
    assert_both_found!(driven(&FEWER_AT_THE_END), 5);
    assert_both_found!(driven(&FEWER_AT_THE_START), 5);
}

#[test]
fn edge_bits_from_elsewhere() {
    const FROM_SCREEN: Way = Way { byte: |[screen, ..], _| screen, ..RIGHT };
    const FROM_PANEL: Way = Way { byte: |[screen, _, panel], mask| screen & mask | panel & !mask, ..RIGHT };
    const ZERO: Way = Way { byte: |[screen, ..], mask| screen & mask, ..RIGHT };
    assert_both_found!(driven(&FROM_SCREEN), 5);
    assert_both_found!(driven(&FROM_PANEL), 5);
    assert_both_found!(driven(&ZERO), 5);
}

#[test]
fn pixels_from_the_image() {
    const OLD: Way = Way { byte: |[_, image, _], _| image, ..RIGHT };
    const JOINED: Way = Way { byte: |[screen, image, _], mask| screen & mask | image, ..RIGHT };
    assert_both_found!(driven(&OLD), 5);
    assert_both_found!(driven(&JOINED), 5);
}

#[test]
fn image_not_kept() {
    const NOT: Way = Way { kept: |image, _, _| image, ..RIGHT };
    const WHOLE_BYTES_ALONE: Way =
        Way { kept: |image, byte, mask| if mask == 0xff { byte } else { image }, ..RIGHT };
    const EDGE_BYTES_ALONE: Way =
        Way { kept: |image, byte, mask| if mask != 0xff { byte } else { image }, ..RIGHT };
    assert_both_found!(driven(&NOT), 5);
    assert_both_found!(driven(&WHOLE_BYTES_ALONE), 5);
    assert_both_found!(driven(&EDGE_BYTES_ALONE), 5);
}

/// The model, with what a line or idle leaves then spoiled.
fn after(call: &DeviceCall, lent: DeviceLent, sent: u32, spoil: fn(DeviceLent)) -> Answer {
    spoiled(call, lent, |_, answer, lent| {
        if is_drive(call) && answer.numbers[0] == sent {
            spoil(lent);
        }
    })
}

fn line(call: &DeviceCall, lent: DeviceLent, spoil: fn(DeviceLent)) -> Answer {
    after(call, lent, 1, spoil)
}

fn idle(call: &DeviceCall, lent: DeviceLent, spoil: fn(DeviceLent)) -> Answer {
    after(call, lent, 0, spoil)
}

#[test]
fn other_writes_or_reads() {
    // Status read after the line, or the device reset.
    assert_both_found!(line(|lent| lent.registers[STATUS] = 0), 5);
    assert_both_found!(line(|lent| lent.registers.fill(0)), 5);
    assert_both_found!(line(|lent| lent.registers[COMMAND] = 0), 5);
    assert_both_found!(line(|lent| lent.registers[ENABLE] = 1), 5);
    assert_both_found!(idle(|lent| lent.registers[LINE_NUMBER] = 0), 5);
    assert_both_found!(idle(|lent| lent.registers[COMMAND] = 0), 5);
    assert_both_found!(idle(|lent| lent.registers[STATUS] = 0), 5);
    assert_both_found!(idle(|lent| lent.panel[0] ^= 1), 5);
    assert_both_found!(idle(|lent| lent.image.copy_from_slice(lent.panel)), 5);
}

/// Copied to the panel without the device.
#[test]
fn registers_left_alone() {
    fn answer(call: &DeviceCall, lent: DeviceLent) -> Answer {
        spoiled(call, lent, |before, _, lent| {
            if is_drive(call) {
                lent.registers.copy_from_slice(&before.registers);
            }
        })
    }
    assert_both_found!(answer, 5);
}

/// The panel is given, the record stays, or another panel's part of it changes.
#[test]
fn another_record_than_a_sends() {
    fn stays(call: &DeviceCall, lent: DeviceLent) -> Answer {
        spoiled(call, lent, |before, _, lent| {
            if is_drive(call) {
                lent.record.copy_from_slice(&before.record);
            }
        })
    }
    fn not_counted(call: &DeviceCall, lent: DeviceLent) -> Answer {
        spoiled(call, lent, |before, _, lent| {
            if let DeviceCall::Drive { number } = *call {
                let place = lines_sent(number as usize);
                lent.record[place..place + 4].copy_from_slice(&before.record[place..place + 4]);
            }
        })
    }
    assert_both_found!(stays, 5);
    assert_both_found!(not_counted, 5);
    assert_both_found!(line(|lent| lent.record[lines_sent(0)] ^= 1), 5);
}

#[test]
fn another_answer_than_a_sends() {
    fn answer(call: &DeviceCall, lent: DeviceLent, numbers: fn([u32; 4]) -> [u32; 4]) -> Answer {
        spoiled(call, lent, |_, answer, _| {
            if is_drive(call) && answer.numbers[0] == 1 {
                answer.numbers = numbers(answer.numbers);
            }
        })
    }
    // In bytes instead of pixels, or with the last pixel included.
    assert_both_found!(answer(|[sent, line, left, right]| [sent, line, left / 8, right.div_ceil(8)]), 5);
    assert_both_found!(answer(|[sent, line, left, right]| [sent, line, left, right - 1]), 5);
    assert_both_found!(answer(|[_, line, left, right]| [0, line, left, right]), 5);
}

#[test]
fn another_panels_line() {
    fn answer(call: &DeviceCall, lent: DeviceLent) -> Answer {
        match *call {
            DeviceCall::Drive { number: number @ 0..4 } => {
                model::device::answer(&DeviceCall::Drive { number: (number + 1) % 4 }, lent)
            }
            _ => model::device::answer(call, lent),
        }
    }
    fn above_3(call: &DeviceCall, lent: DeviceLent) -> Answer {
        match *call {
            DeviceCall::Drive { number } => {
                model::device::answer(&DeviceCall::Drive { number: number % 4 }, lent)
            }
            _ => model::device::answer(call, lent),
        }
    }
    assert_both_found!(answer, 5);
    assert_both_found!(above_3, 5);
}

/// Busy, and yet the line is driven, or idle answered.
#[test]
fn driven_while_busy() {
    fn answer(call: &DeviceCall, lent: DeviceLent, cause: Cause) -> Answer {
        if causes(call, &lent).each().eq([cause]) {
            if cause == Cause::IdleDriveBusy {
                return Answer::done([0; 4]);
            }
            lent.registers.fill(0);
        }
        model::device::answer(call, lent)
    }
    assert_both_found!(answer(Cause::DriveBusy), 5);
    assert_both_found!(answer(Cause::IdleDriveBusy), 5);
}

/// What only a core can do wrong that the judge sees: refusals come from the model.
#[test]
fn refused_although_accepted() {
    fn refused(call: &DeviceCall, lent: DeviceLent, such: fn(&[u8]) -> bool) -> Answer {
        if is_drive(call) && causes(call, &lent).first().is_none() && such(lent.registers) {
            return Answer::refused(Refusal::Register);
        }
        model::device::answer(call, lent)
    }
    assert_found(|call, lent| Some(refused(call, lent, |registers| registers[STATUS] == INTERRUPT)), 5);
    assert_found(|call, lent| Some(refused(call, lent, |registers| registers[LINE_NUMBER] > 79)), 5);
    assert_found(|call, lent| Some(refused(call, lent, |registers| registers[COMMAND] == START)), 5);
}

/// The record's STATE, or the registers', not tested.
#[test]
fn state_not_tested() {
    fn answer(call: &DeviceCall, mut lent: DeviceLent, cause: Cause) -> Answer {
        if is_drive(call) && causes(call, &lent).first() == Some(cause) {
            if cause == Cause::Record {
                return Answer::done([0; 4]);
            }
            let mut registers = [0; REGISTERS];
            return model::device::answer(call, DeviceLent { registers: &mut registers, ..again(&mut lent) });
        }
        model::device::answer(call, lent)
    }
    assert_found(|call, lent| Some(answer(call, lent, Cause::Record)), 5);
    assert_both_found!(answer(Cause::Reset), 5);
    assert_both_found!(answer(Cause::Enable), 5);
    assert_both_found!(answer(Cause::BusyFarEnd), 5);
}
