//! The C interface of the caption screen, as include/caption.h has it: the calls and their results ([`calls`]), where the
//! fields of the record lie ([`layout`]), and the numbers that are told and answered ([`numbers`]).
//!
//! The crate `caption` is made for hosts: it has the same calls without `unsafe`. What each call does, which numbers it
//! takes and what is trusted of its caller: include/caption.h, docs/CALLS.md.
//!
//! The library is that of the folder which `CAPTION_LIBRARY` names or, where it is not set, the one that
//! `tools/staticlib` makes of this repository (see build.rs). Without the feature `link` nothing is linked.
#![no_std]
#![warn(missing_docs)]

pub mod calls;
pub mod layout;
pub mod numbers;

pub use calls::*;

const _: () = {
    assert!(size_of::<Value>() == 8 && align_of::<Value>() == 4);
    assert!(size_of::<Area>() == 20 && align_of::<Area>() == 4);
    assert!(size_of::<Sent>() == 20 && align_of::<Sent>() == 4);
    assert!(layout::EDGE + 1 == layout::RECORD && layout::RECORD == 359);
};
