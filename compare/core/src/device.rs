//! The calls of the glass controller and of its line driver.

#[allow(unused_imports)]
use super::{code, ffi, sent, value};
use calls::{Answer, DeviceCall, DeviceLent};

/// Give the core such a call on the lent bytes; `None` if it has no such call.
#[rustfmt::skip]
#[allow(unused_variables, unreachable_code)]
pub fn answer(call: &DeviceCall, lent: DeviceLent) -> Option<Answer> {
    let (record, record_len) = (lent.record.as_mut_ptr(), lent.record.len());
    let (memory, memory_len) = (lent.memory.as_ptr(), lent.memory.len());
    let (registers, registers_len) = (lent.registers.as_mut_ptr(), lent.registers.len());
    let (panel, panel_len) = (lent.panel.as_mut_ptr(), lent.panel.len());
    let (image, image_len) = (lent.image.as_mut_ptr(), lent.image.len());
    // Each pointer is that of a slice, valid for its length, and no two slices overlap: `DeviceLent` holds
    // them as `&mut`.
    #[allow(unused_unsafe)]
    Some(unsafe { match *call {
        #[cfg(has = "controller_write")]
        DeviceCall::Write { register, value } => code(
            ffi::caption_controller_write(registers, registers_len, panel, panel_len, register, value),
        ),
        #[cfg(has = "controller_read")]
        DeviceCall::Read { register } => value(
            ffi::caption_controller_read(registers, registers_len, panel, panel_len, register),
        ),
        #[cfg(has = "drive_line")]
        DeviceCall::Drive { number } => sent(
            ffi::caption_drive_line(
                record, record_len, memory, memory_len,
                registers, registers_len, panel, panel_len, image, image_len, number,
            ),
        ),
        #[allow(unreachable_patterns)]
        _ => return None,
    } })
}
