//! Every refusal: how it is reached, that the first one due is answered, and that it leaves every byte. `by_host` goes
//! through the safe crate, `by_core` through `caption_sys` on plain buffers, for what the types make impossible.

#[path = "../common/mod.rs"]
mod common;

mod by_core;
mod by_host;
mod core_calls;
mod lengths;
mod numbers;
