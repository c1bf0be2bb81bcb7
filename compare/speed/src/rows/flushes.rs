//! Flushes, with the fonts whole.

use super::text::{bytes, pairs};
use super::{Row, TEXT_START, opened};
use crate::library::Library;
use crate::limits;
use crate::side::OnReference;
use calls::layout::CELLS;
use calls::{Buffers, Call, FontsLent};
use reference::Reference;
use std::hint::black_box;

pub fn rows(core: Option<Library>) -> Vec<Row> {
    let empty = flush("flush, empty text", &[], vec![], core).limit(limits::FLUSH_EMPTY_TEXT);
    let rows_ends = [vec![65], gb()].concat()[..CELLS].to_vec();
    let mut rows = vec![empty];
    rows.extend(
        [
            ("flush, one byte a cell", bytes(CELLS)),
            ("flush, GB", gb()),
            ("flush, emoji", pairs(50, 248, 161)),
            ("flush, hexadecimal", pairs(50, 129, 64)),
            ("flush, pairs over the rows' ends", rows_ends),
        ]
        .map(|(name, text)| flush(name, &text, vec![], core)),
    );
    rows.extend(
        [
            ("flush, list of 16, one byte a cell", bytes(CELLS)),
            ("flush, list of 16, GB", gb()),
            ("flush, list of 16, its codes", listed().take(50).flatten().collect()),
            ("flush, list of 16, hexadecimal", pairs(50, 129, 64)),
        ]
        .map(|(name, text)| flush(name, &text, list(), core).limit(limits::FLUSH_WITH_LIST)),
    );
    rows
}

fn gb() -> Vec<u8> {
    pairs(50, 176, 161)
}

/// Sixteen codes that are neither emoji nor GB, again and again.
fn listed() -> impl Iterator<Item = [u8; 2]> {
    (0..16).map(|k| [140 + k % 4, 64 + 3 * k]).cycle()
}

/// An entry for each of these codes: the code, least byte first, and the offset of its glyph.
fn list() -> Vec<u8> {
    let entries = listed().take(16).zip(0u32..);
    entries
        .flat_map(|([lead, trail], k)| [[trail, lead].to_vec(), (32 * k).to_le_bytes().to_vec()].concat())
        .collect()
}

fn flush(name: &str, text: &[u8], extra_list: Vec<u8>, core: Option<Library>) -> Row {
    let call = Call::Flush { fonts: FontsLent::whole(extra_list) };
    let start = with_text(text);
    let call_of_core = call.clone();
    let mut has_list = false;
    let rust = OnReference::new(&start, move |reference: &mut Reference, _: &mut [u8]| {
        if !has_list {
            // The reference keeps its list; the core is lent it at each call.
            has_list = true;
            reference.call_uncaught(&call);
        }
        reference.flush_alone();
    });
    Row::new(name, rust).with_core(core, start, move |core, buffers| {
        black_box(core.answer(black_box(&call_of_core), buffers.lend(&call_of_core)));
    })
}

fn with_text(text: &[u8]) -> Buffers {
    let mut buffers = opened();
    buffers.memory[TEXT_START..][..text.len()].copy_from_slice(text);
    buffers
}
