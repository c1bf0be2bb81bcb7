//! Faults in what accepted reads and writes of the registers do.

use super::{spoiled, written};
use calls::register::*;
use calls::{Answer, DeviceBuffers, DeviceCall, DeviceLent};

/// The byte of a data write that ends its line.
fn last_byte(call: &DeviceCall, before: &DeviceBuffers) -> Option<u8> {
    written(call, DATA).filter(|_| before.registers[BYTE_COUNT] == 1)
}

/// The model, with the status that this leaves after the last byte of a line: told the one before and the one
/// that is due.
fn with_status(call: &DeviceCall, lent: DeviceLent, status: fn(u8, u8) -> u8) -> Answer {
    spoiled(call, lent, |before, _, lent| {
        if last_byte(call, before).is_some() {
            lent.registers[STATUS] = status(before.registers[STATUS], lent.registers[STATUS]);
        }
    })
}

#[test]
fn interrupt_raised_although_not_enabled() {
    assert_both_found!(with_status(|_, _| INTERRUPT), 5);
}

#[test]
fn interrupt_not_raised_although_enabled() {
    assert_both_found!(with_status(|before, _| before & INTERRUPT), 5);
}

#[test]
fn a_pending_interrupt_lost_at_the_end_of_a_line() {
    assert_both_found!(with_status(|before, due| due & !(before & INTERRUPT)), 5);
}

#[test]
fn busy_left_set() {
    assert_both_found!(with_status(|_, due| due | BUSY), 5);
}

/// With the byte count 0 all the same: the next call is STATE.
#[test]
fn busy_cleared_one_byte_too_early() {
    fn answer(call: &DeviceCall, lent: DeviceLent) -> Answer {
        spoiled(call, lent, |before, _, lent| {
            if written(call, DATA).is_some() && before.registers[BYTE_COUNT] == 2 {
                lent.registers[STATUS] &= !BUSY;
            }
        })
    }
    assert_both_found!(answer, 5);
}

/// The model, and then one register as it was before a data write.
fn register_stays(call: &DeviceCall, lent: DeviceLent, register: usize) -> Answer {
    spoiled(call, lent, |before, _, lent| {
        if written(call, DATA).is_some() {
            lent.registers[register] = before.registers[register];
        }
    })
}

#[test]
fn first_byte_not_raised() {
    assert_both_found!(register_stays(FIRST_BYTE), 5);
}

#[test]
fn byte_count_not_lowered() {
    assert_both_found!(register_stays(BYTE_COUNT), 5);
}

#[test]
fn data_not_left_in_its_register() {
    assert_both_found!(register_stays(DATA), 5);
}

/// The model, with the byte of a data write at another place.
fn stored_at(call: &DeviceCall, lent: DeviceLent, place: fn(usize, usize) -> usize) -> Answer {
    spoiled(call, lent, |before, _, lent| {
        if let Some(value) = written(call, DATA) {
            let [line, first] = [LINE_NUMBER, FIRST_BYTE].map(|register| before.registers[register] as usize);
            lent.panel.copy_from_slice(&before.panel);
            lent.panel[place(line, first).min(1_599)] = value;
        }
    })
}

#[test]
fn a_byte_at_another_place() {
    assert_both_found!(stored_at(|line, first| 20 * line + first + 1), 5);
    assert_both_found!(stored_at(|line, first| 16 * line + first), 5);
    assert_both_found!(stored_at(|line, first| 20 * (line + 1) + first), 5);
    assert_both_found!(stored_at(|line, first| 80 * first + line), 5);
}

#[test]
fn reading_status_leaves_the_interrupt() {
    fn answer(call: &DeviceCall, lent: DeviceLent) -> Answer {
        spoiled(call, lent, |before, _, lent| {
            if let DeviceCall::Read { .. } = call {
                lent.registers.copy_from_slice(&before.registers);
            }
        })
    }
    assert_both_found!(answer, 5);
}

#[test]
fn reading_status_clears_busy_too() {
    fn answer(call: &DeviceCall, lent: DeviceLent) -> Answer {
        spoiled(call, lent, |_, _, lent| {
            if *call == (DeviceCall::Read { register: STATUS as u8 }) {
                lent.registers[STATUS] = 0;
            }
        })
    }
    assert_both_found!(answer, 5);
}

#[test]
fn reading_any_register_clears_the_interrupt() {
    fn answer(call: &DeviceCall, lent: DeviceLent) -> Answer {
        spoiled(call, lent, |_, _, lent| {
            if let DeviceCall::Read { .. } = call {
                lent.registers[STATUS] &= !INTERRUPT;
            }
        })
    }
    assert_both_found!(answer, 5);
}

/// It gives the bits as they are after the read.
#[test]
fn status_read_after_it_is_cleared() {
    fn answer(call: &DeviceCall, lent: DeviceLent) -> Answer {
        spoiled(call, lent, |_, answer, lent| {
            if *call == (DeviceCall::Read { register: STATUS as u8 }) {
                answer.numbers[0] = lent.registers[STATUS] as u32;
            }
        })
    }
    assert_both_found!(answer, 5);
}

/// The model, with some registers as they were before a reset.
fn reset_keeps(call: &DeviceCall, lent: DeviceLent, kept: &[usize]) -> Answer {
    spoiled(call, lent, |before, _, lent| {
        if written(call, RESET).is_some() {
            kept.iter().for_each(|register| lent.registers[*register] = before.registers[*register]);
        }
    })
}

#[test]
fn a_reset_that_keeps_registers() {
    assert_both_found!(reset_keeps(&[COMMAND]), 5);
    assert_both_found!(reset_keeps(&[LINE_NUMBER, FIRST_BYTE, BYTE_COUNT]), 5);
    assert_both_found!(reset_keeps(&[DATA]), 5);
    assert_both_found!(reset_keeps(&[STATUS]), 5);
    assert_both_found!(reset_keeps(&[ENABLE]), 5);
}

#[test]
fn a_reset_that_stays_in_its_register_or_clears_the_panel() {
    fn stays(call: &DeviceCall, lent: DeviceLent) -> Answer {
        spoiled(call, lent, |_, _, lent| lent.registers[RESET] |= written(call, RESET).unwrap_or(0))
    }
    fn clears(call: &DeviceCall, lent: DeviceLent) -> Answer {
        spoiled(call, lent, |_, _, lent| {
            if written(call, RESET).is_some() {
                lent.panel.fill(0);
            }
        })
    }
    assert_both_found!(stays, 5);
    assert_both_found!(clears, 5);
}

/// The model, and then something more after this command.
fn after_command(
    call: &DeviceCall,
    lent: DeviceLent,
    command: u8,
    more: fn(&DeviceBuffers, DeviceLent),
) -> Answer {
    spoiled(call, lent, |before, _, lent| {
        if written(call, COMMAND) == Some(command) {
            more(before, lent);
        }
    })
}

fn nothing(call: &DeviceCall, lent: DeviceLent, more: fn(&DeviceBuffers, DeviceLent)) -> Answer {
    after_command(call, lent, NOTHING, more)
}

fn clear(call: &DeviceCall, lent: DeviceLent, more: fn(&DeviceBuffers, DeviceLent)) -> Answer {
    after_command(call, lent, CLEAR, more)
}

fn start(call: &DeviceCall, lent: DeviceLent, more: fn(&DeviceBuffers, DeviceLent)) -> Answer {
    after_command(call, lent, START, more)
}

#[test]
fn commands_that_do_more_or_less() {
    assert_both_found!(nothing(|before, lent| lent.registers[COMMAND] = before.registers[COMMAND]), 5);
    assert_both_found!(nothing(|_, lent| lent.registers[STATUS] = 0), 5);
    assert_both_found!(clear(|before, lent| lent.panel.copy_from_slice(&before.panel)), 5);
    assert_both_found!(clear(|before, lent| lent.panel[1_599] = before.panel[1_599]), 5);
    assert_both_found!(clear(|_, lent| lent.panel.fill(0xff)), 5);
    assert_both_found!(clear(|_, lent| lent.registers[COMMAND] = 0), 5);
    assert_both_found!(start(|_, lent| lent.registers[STATUS] &= !BUSY), 5);
    assert_both_found!(start(|_, lent| lent.registers[STATUS] = BUSY), 5);
    assert_both_found!(start(|_, lent| lent.registers[COMMAND] = 0), 5);
    assert_both_found!(start(|_, lent| lent.panel[20 * lent.registers[LINE_NUMBER] as usize] = 0), 5);
}

/// A write to one of these leaves another byte, or reaches another register too.
#[test]
fn writes_that_leave_another_byte() {
    fn answer(call: &DeviceCall, lent: DeviceLent, register: usize) -> Answer {
        spoiled(call, lent, |before, _, lent| {
            if written(call, register).is_some() {
                lent.registers[register] = before.registers[register];
            }
        })
    }
    fn raises(call: &DeviceCall, lent: DeviceLent) -> Answer {
        spoiled(call, lent, |_, _, lent| {
            if written(call, ENABLE) == Some(1) {
                lent.registers[STATUS] |= INTERRUPT;
            }
        })
    }
    assert_both_found!(answer(LINE_NUMBER), 5);
    assert_both_found!(answer(FIRST_BYTE), 5);
    assert_both_found!(answer(BYTE_COUNT), 5);
    assert_both_found!(answer(ENABLE), 5);
    assert_both_found!(raises, 5);
}
