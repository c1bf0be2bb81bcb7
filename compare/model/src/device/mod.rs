//! Change request 7: the glass controller, a device of eight byte registers, and the line driver that makes
//! a send through it.

mod cause;
mod controller;
mod driver;
mod refusals;

pub use cause::{Cause, Causes, causes};

use calls::{Answer, DeviceCall, DeviceLent};
use controller::Controller;

/// What the call answers; the lent bytes become what it leaves.
pub fn answer(call: &DeviceCall, lent: DeviceLent) -> Answer {
    if let Some(cause) = causes(call, &lent).first() {
        return Answer::refused(cause.refusal());
    }
    match *call {
        DeviceCall::Write { register, value } => {
            controller(lent).write(register as usize, value);
            Answer::done([0; 4])
        }
        DeviceCall::Read { register } => {
            let value = controller(lent).read(register as usize);
            Answer::done([value as u32, 0, 0, 0])
        }
        DeviceCall::Drive { number } => Answer::done(driver::drive(lent, number as usize)),
    }
}

fn controller(lent: DeviceLent<'_>) -> Controller<'_> {
    Controller { registers: lent.registers, panel: lent.panel }
}
