//! The core, if it is linked.

use calls::{Answer, Call, DeviceCall, DeviceLent, Lent};

/// Someone who answers calls on lent bytes; `None` for a call that it hasn't got.
pub type Answering = fn(&Call, Lent) -> Option<Answer>;

/// The same for calls of the device and of its line driver.
pub type DeviceAnswering = fn(&DeviceCall, DeviceLent) -> Option<Answer>;

/// The core, or `None` when the driver is built without it.
pub fn linked() -> Option<Answering> {
    #[cfg(feature = "core")]
    return Some(caption_core::answer);
    #[cfg(not(feature = "core"))]
    None
}

/// The core by its device calls, likewise.
pub fn linked_device() -> Option<DeviceAnswering> {
    #[cfg(feature = "core")]
    return Some(caption_core::device_answer);
    #[cfg(not(feature = "core"))]
    None
}

/// Whether the linked core has the call of this name.
pub fn has(name: &str) -> bool {
    #[cfg(feature = "core")]
    return caption_core::has(name);
    #[cfg(not(feature = "core"))]
    {
        let _ = name;
        false
    }
}
