//! The calls of the caption screen as values: what is told, what is lent, what is answered.
//! Reference, model and core are all driven with these.

mod answer;
mod call;
mod device;
pub mod layout;
mod lent;
mod painting;
pub mod register;

pub use answer::{Answer, Refusal};
pub use call::{Call, FontsLent};
pub use device::{DeviceBuffers, DeviceCall, DeviceLent};
pub use lent::{Buffers, Lent};
pub use painting::Painting;

/// The names of all exported calls, without `caption_`.
pub fn names() -> impl Iterator<Item = &'static str> {
    Call::NAMES.into_iter().chain(DeviceCall::NAMES)
}
