//! What a Rust programmer would write for calls that the reference hasn't got, or tests nothing in.

mod device;
mod record;
mod send;

pub use device::{read, write};
pub use record::store_rect;
pub use send::{copy_line, send};

use calls::layout::RECORD;
use record::{load, store, valid};

/// `set_row` on a lent record: all tests, then the fields of the head loaded and stored.
pub fn set_row(record: &mut [u8], row: u8) -> u32 {
    if record.len() != RECORD {
        return 1;
    }
    if !valid(record) {
        return 2;
    }
    if row > 4 {
        return 4;
    }
    let mut head = load(record);
    head.row = row;
    store(record, &head);
    0
}
