//! The bytes of model and core for device calls: what is lent of them, copied and compared.

use crate::judge::Difference;
use crate::judge::difference::compare_bytes;
use calls::{DeviceBuffers, DeviceCall, DeviceLent, Lent};

/// The bytes that model and core are lent.
pub struct Sides {
    pub model: DeviceBuffers,
    pub core: DeviceBuffers,
}

impl Sides {
    pub fn new() -> Self {
        Self { model: DeviceBuffers::zero(), core: DeviceBuffers::zero() }
    }
}

/// For a call that is none of the device's: record, memory, and this panel for a send.
pub fn beside_device<'a>(buffers: &'a mut DeviceBuffers, panel: &'a mut [u8]) -> Lent<'a> {
    Lent { record: &mut buffers.record, memory: &mut buffers.memory, panel }
}

/// A copy with the host's own memory, where that is lent as it is.
pub fn lend<'a>(copy: &'a mut DeviceBuffers, own_memory: &'a mut [u8], whole: bool) -> DeviceLent<'a> {
    let DeviceBuffers { record, memory, registers, panel, image } = copy;
    DeviceLent { record, memory: if whole { own_memory } else { memory }, registers, panel, image }
}

/// What the call is lent, but for memory.
pub fn copy_lent(call: &DeviceCall, from: &DeviceBuffers, to: &mut DeviceBuffers) {
    if let DeviceCall::Drive { .. } = call {
        copy(from, to);
    } else {
        to.registers.clone_from(&from.registers);
        to.panel.clone_from(&from.panel);
    }
}

/// All but memory.
pub fn copy(from: &DeviceBuffers, to: &mut DeviceBuffers) {
    to.registers.clone_from(&from.registers);
    to.panel.clone_from(&from.panel);
    to.image.clone_from(&from.image);
    to.record.clone_from(&from.record);
}

/// What the call was lent, but for memory.
pub fn compare_lent(
    call: &DeviceCall,
    one: &str,
    a: &DeviceBuffers,
    other: &str,
    b: &DeviceBuffers,
) -> Result<(), Difference> {
    compare_bytes("registers", 0, one, &a.registers, other, &b.registers)?;
    compare_bytes("panel", 0, one, &a.panel, other, &b.panel)?;
    if let DeviceCall::Drive { .. } = call {
        compare_bytes("image", 0, one, &a.image, other, &b.image)?;
        compare_bytes("record", 0, one, &a.record, other, &b.record)?;
    }
    Ok(())
}

/// The same with memory, where it is a copy too.
pub fn compare_copies(
    call: &DeviceCall,
    whole_memory: bool,
    one: &str,
    a: &DeviceBuffers,
    other: &str,
    b: &DeviceBuffers,
) -> Result<(), Difference> {
    if !whole_memory {
        compare_bytes("memory", 0, one, &a.memory, other, &b.memory)?;
    }
    compare_lent(call, one, a, other, b)
}
