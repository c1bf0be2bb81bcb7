//! Pokes: of every screen byte where all are taken, and of every address where some are ignored.

use super::{WINDOWS, after, from_record, levelled, opened, record, unmarked};
use crate::list::List;
use calls::Call;
use calls::layout::*;

const ALL_KEYS: [u32; 8] = [u32::MAX; 8];

/// Screens whose bytes are all taken with all keys set: the first above the key addresses, one at an odd
/// address, the last below 0xe000.
const TAKEN: [u16; 3] = [256, 4_097, 0xe000 - SCREEN as u16];

/// Every byte of these screens, the one before and the one behind: each mark by itself, then all from
/// level panels, which only the marks bring level again.
pub fn screen_bytes() -> impl Iterator<Item = List> {
    TAKEN.into_iter().flat_map(|graphics_base| {
        let open = Call::Open { graphics_base, text_base: WINDOWS.1, version: 1, keys: ALL_KEYS, edge: 0 };
        from_record(record_at(graphics_base), unmarked(around(graphics_base)))
            .chain(after(levelled(open), around(graphics_base)))
    })
}

/// A valid record with this screen and all keys, nothing marked.
fn record_at(graphics_base: u16) -> Vec<u8> {
    let mut record = record(1, 0, 0);
    record[GRAPHICS_BASE..][..2].copy_from_slice(&graphics_base.to_le_bytes());
    record[KEYS..FLAGS].fill(0xff);
    record
}

/// The bytes of a screen and one on either side, in address order.
fn around(graphics_base: u16) -> impl Iterator<Item = Call> {
    (graphics_base - 1..=graphics_base + SCREEN as u16).map(poke)
}

/// Every address, with the windows at both ends of memory, on key addresses and around 0xe000.
pub fn all_addresses() -> impl Iterator<Item = List> {
    let layouts = [
        (0, 1600, [0x8000_0001; 8]),
        (63_935, 0, ALL_KEYS),
        (0xe000 - 800, 0xe000 - 900, [0; 8]),
        (100, 65_435, [0x00ff_ff00; 8]),
    ];
    layouts.into_iter().flat_map(|(graphics_base, text_base, keys)| {
        let open = Call::Open { graphics_base, text_base, version: 0, keys, edge: 0 };
        opened(open, (0..=65_535).map(poke))
    })
}

/// Another byte than the zeros that an open leaves, mostly another one than at the next address.
fn poke(address: u16) -> Call {
    let byte = (address as u8).wrapping_mul(7) ^ (address >> 8) as u8 ^ 0xa5;
    Call::WriteByte { address, byte: byte.max(1) }
}
