//! Faults in what is refused, and in which order.

use super::{again, assert_found, is_drive, written};
use calls::layout::{PANEL, RECORD};
use calls::register::*;
use calls::{Answer, DeviceCall, DeviceLent, Refusal};
use model::device::{Cause, causes};

/// Whether this is the only cause of a refusal.
fn only(call: &DeviceCall, lent: &DeviceLent, cause: Cause) -> bool {
    causes(call, lent).each().eq([cause])
}

#[test]
fn data_taken_while_not_busy() {
    fn answer(call: &DeviceCall, lent: DeviceLent) -> Answer {
        let takes = only(call, &lent, Cause::DataNotBusy) && lent.registers[LINE_NUMBER] < 80;
        let ends = takes && lent.registers[FIRST_BYTE] as usize + lent.registers[BYTE_COUNT] as usize <= 20;
        if ends && lent.registers[BYTE_COUNT] > 0 {
            lent.registers[STATUS] |= BUSY;
        }
        model::device::answer(call, lent)
    }
    assert_both_found!(answer, 5);
}

/// First byte plus count as a byte: 255 + 1 is 0.
#[test]
fn a_sum_that_wraps_at_256() {
    fn answer(call: &DeviceCall, lent: DeviceLent) -> Answer {
        let wraps = only(call, &lent, Cause::StartFarEnd)
            && lent.registers[FIRST_BYTE].wrapping_add(lent.registers[BYTE_COUNT]) <= 20;
        if wraps {
            lent.registers[COMMAND] = START;
            lent.registers[STATUS] |= BUSY;
            return Answer::done([0; 4]);
        }
        model::device::answer(call, lent)
    }
    fn in_state(call: &DeviceCall, lent: DeviceLent) -> Answer {
        let wraps = only(call, &lent, Cause::BusyFarEnd) && written(call, ENABLE).is_some();
        if wraps && lent.registers[FIRST_BYTE].wrapping_add(lent.registers[BYTE_COUNT]) <= 20 {
            lent.registers[ENABLE] = written(call, ENABLE).unwrap_or(0);
            return Answer::done([0; 4]);
        }
        model::device::answer(call, lent)
    }
    assert_both_found!(answer, 5);
    assert_both_found!(in_state, 5);
}

/// Command 2 started all the same where this alone keeps it from that.
fn started(call: &DeviceCall, lent: DeviceLent, cause: Cause) -> Answer {
    if only(call, &lent, cause) {
        lent.registers[COMMAND] = START;
        lent.registers[STATUS] |= BUSY;
        return Answer::done([0; 4]);
    }
    model::device::answer(call, lent)
}

#[test]
fn command_2_with_bad_fields_taken() {
    assert_both_found!(started(Cause::StartLine), 5);
    assert_both_found!(started(Cause::StartEnd), 5);
    assert_both_found!(started(Cause::StartFarEnd), 5);
    assert_both_found!(started(Cause::StartCount), 5);
}

/// A limit that is one too low or too high.
#[test]
fn limits_beside_the_right_ones() {
    fn refuses(call: &DeviceCall, lent: DeviceLent, such: fn(&[u8]) -> bool) -> Answer {
        let starts = causes(call, &lent).first().is_none() && written(call, COMMAND) == Some(START);
        if starts && such(lent.registers) {
            return Answer::refused(Refusal::Register);
        }
        model::device::answer(call, lent)
    }
    fn takes(call: &DeviceCall, lent: DeviceLent, such: fn(&[u8]) -> bool) -> Answer {
        let first = causes(call, &lent).first();
        let beside = [Some(Cause::StartLine), Some(Cause::StartEnd)].contains(&first) && such(lent.registers);
        if beside {
            started(call, lent, first.unwrap_or(Cause::StartLine))
        } else {
            model::device::answer(call, lent)
        }
    }
    assert_found(|call, lent| Some(refuses(call, lent, |registers| registers[LINE_NUMBER] == 79)), 5);
    assert_found(
        |call, lent| {
            Some(refuses(call, lent, |registers| registers[FIRST_BYTE] + registers[BYTE_COUNT] == 20))
        },
        5,
    );
    assert_both_found!(takes(|registers| registers[LINE_NUMBER] == 80), 5);
    assert_both_found!(
        takes(|registers| registers[FIRST_BYTE] as usize + registers[BYTE_COUNT] as usize == 21),
        1
    );
}

/// A write that is taken although this alone refuses it: its byte stays in its register.
fn taken(call: &DeviceCall, lent: DeviceLent, cause: Cause) -> Answer {
    match *call {
        DeviceCall::Write { register, value } if only(call, &lent, cause) => {
            lent.registers[register as usize % REGISTERS] = value;
            Answer::done([0; 4])
        }
        _ => model::device::answer(call, lent),
    }
}

#[test]
fn writes_taken_that_are_to_be_refused() {
    assert_both_found!(taken(Cause::NoRegister), 5);
    assert_both_found!(taken(Cause::StatusWritten), 5);
    assert_both_found!(taken(Cause::CommandWritten), 5);
    assert_both_found!(taken(Cause::EnableWritten), 5);
    assert_both_found!(taken(Cause::CommandBusy), 5);
    assert_both_found!(taken(Cause::LineBusy), 5);
    assert_both_found!(taken(Cause::FirstByteBusy), 5);
    assert_both_found!(taken(Cause::ByteCountBusy), 5);
}

/// STATE that lets something pass: the call is made as if it were not there.
fn passed(call: &DeviceCall, lent: DeviceLent, cause: Cause) -> Answer {
    let reset = written(call, RESET).is_some() && causes(call, &lent).first() == Some(cause);
    if reset {
        lent.registers.fill(0);
        return Answer::done([0; 4]);
    }
    model::device::answer(call, lent)
}

/// Damaged registers are STATE for a reset too.
#[test]
fn a_reset_taken_on_damaged_registers() {
    assert_both_found!(passed(Cause::Command), 5);
    assert_both_found!(passed(Cause::Status), 5);
    assert_both_found!(passed(Cause::Enable), 5);
    assert_both_found!(passed(Cause::Reset), 5);
    assert_both_found!(passed(Cause::BusyLine), 5);
    assert_both_found!(passed(Cause::BusyEnd), 5);
    assert_both_found!(passed(Cause::BusyFarEnd), 5);
    assert_both_found!(passed(Cause::BusyCount), 5);
}

/// What STATE does not list: busy with another command than 2, fields that are no line's while not busy, both bits.
#[test]
fn state_that_refuses_too_much() {
    fn refused(call: &DeviceCall, lent: DeviceLent, such: fn(&[u8]) -> bool) -> Answer {
        let passes = causes(call, &lent).first().is_none();
        if passes && such(lent.registers) {
            Answer::refused(Refusal::State)
        } else {
            model::device::answer(call, lent)
        }
    }
    assert_found(
        |call, lent| {
            Some(refused(call, lent, |registers| registers[STATUS] % 2 == 1 && registers[COMMAND] != 2))
        },
        5,
    );
    assert_found(|call, lent| Some(refused(call, lent, |registers| registers[LINE_NUMBER] > 79)), 5);
    assert_found(|call, lent| Some(refused(call, lent, |registers| registers[BYTE_COUNT] > 20)), 5);
    assert_found(|call, lent| Some(refused(call, lent, |registers| registers[STATUS] == 3)), 5);
}

/// Enable, data and reset are taken while busy.
#[test]
fn writes_refused_that_are_taken_while_busy() {
    fn refused(call: &DeviceCall, lent: DeviceLent, register: usize) -> Answer {
        let busy = lent.registers.get(STATUS).is_some_and(|status| status & BUSY != 0);
        let passes = causes(call, &lent).first().is_none();
        if passes && busy && written(call, register).is_some() {
            return Answer::refused(Refusal::Register);
        }
        model::device::answer(call, lent)
    }
    assert_found(|call, lent| Some(refused(call, lent, ENABLE)), 5);
    assert_found(|call, lent| Some(refused(call, lent, DATA)), 5);
    assert_found(|call, lent| Some(refused(call, lent, RESET)), 5);
}

/// The model, but where both are due it answers the later one.
fn later_first(call: &DeviceCall, lent: DeviceLent, [first, later]: [Refusal; 2]) -> Answer {
    let due = |refusal: Refusal| causes(call, &lent).each().any(|cause| cause.refusal() == refusal);
    if due(first) && due(later) { Answer::refused(later) } else { model::device::answer(call, lent) }
}

#[test]
fn refusals_in_another_order() {
    use Refusal::{Lent, Panel, Register, State};
    assert_found(|call, lent| Some(later_first(call, lent, [Lent, State])), 5);
    assert_found(|call, lent| Some(later_first(call, lent, [Lent, Panel])), 5);
    assert_found(|call, lent| Some(later_first(call, lent, [Lent, Register])), 5);
    assert_found(|call, lent| Some(later_first(call, lent, [State, Panel])), 5);
    assert_found(|call, lent| Some(later_first(call, lent, [State, Register])), 5);
    assert_found(|call, lent| Some(later_first(call, lent, [Panel, Register])), 5);
}

/// A longer buffer taken for its first bytes, where only that is wrong.
fn longer_taken(call: &DeviceCall, mut lent: DeviceLent, cause: Cause) -> Answer {
    if !only(call, &lent, cause) {
        return model::device::answer(call, lent);
    }
    let DeviceLent { record, memory, registers, panel, image } = again(&mut lent);
    let cut = DeviceLent {
        record: first_of(record, RECORD),
        memory: first_of(memory, 65_536),
        registers: first_of(registers, REGISTERS),
        panel: first_of(panel, PANEL),
        image: first_of(image, PANEL),
    };
    model::device::answer(call, cut)
}

fn first_of(bytes: &mut [u8], length: usize) -> &mut [u8] {
    let length = length.min(bytes.len());
    &mut bytes[..length]
}

#[test]
fn longer_buffers_taken() {
    assert_found(|call, lent| Some(longer_taken(call, lent, Cause::RecordLength)), 5);
    assert_found(|call, lent| Some(longer_taken(call, lent, Cause::MemoryLength)), 5);
    assert_found(|call, lent| Some(longer_taken(call, lent, Cause::RegistersLength)), 5);
    assert_found(|call, lent| Some(longer_taken(call, lent, Cause::PanelLength)), 5);
    assert_found(|call, lent| Some(longer_taken(call, lent, Cause::ImageLength)), 5);
}

/// A panel's length that a read does not test: it changes no byte of it.
#[test]
fn a_read_that_does_not_test_the_panel() {
    fn answer(call: &DeviceCall, mut lent: DeviceLent) -> Answer {
        match *call {
            DeviceCall::Read { .. } if only(call, &lent, Cause::PanelLength) => {
                let mut panel = vec![0; PANEL];
                model::device::answer(call, DeviceLent { panel: &mut panel, ..again(&mut lent) })
            }
            _ => model::device::answer(call, lent),
        }
    }
    assert_found(|call, lent| Some(answer(call, lent)), 5);
}

#[test]
fn a_refusal_that_changes_a_byte() {
    fn answer(call: &DeviceCall, mut lent: DeviceLent, spoil: fn(&mut DeviceLent)) -> Answer {
        let answer = model::device::answer(call, again(&mut lent));
        if !answer.accepted() && (is_drive(call) || !lent.registers.is_empty()) {
            spoil(&mut lent);
        }
        answer
    }
    fn change(bytes: &mut [u8]) {
        bytes.iter_mut().take(1).for_each(|byte| *byte ^= 1);
    }
    assert_both_found!(answer(|lent| change(lent.registers)), 5);
    assert_both_found!(answer(|lent| change(lent.panel)), 5);
    assert_both_found!(answer(|lent| change(lent.image)), 5);
    assert_both_found!(answer(|lent| change(lent.record)), 5);
}

#[test]
fn numbers_beside_a_refusal() {
    assert_found(
        |call, lent| {
            let answer = model::device::answer(call, lent);
            let numbers = if answer.code == 10 { [1, 0, 0, 0] } else { answer.numbers };
            Some(Answer { numbers, ..answer })
        },
        5,
    );
}
