//! A whole cue: the screen cleared, two lines of text, shown, and brought to one panel; and a cursor that
//! blinks in the first row with a clock in the last one. On the Rust side the reference shows it, and the
//! lines of its dirty area are copied, without any test.

use super::text::{bytes, pairs};
use super::{Row, SCREEN_BASE, opened};
use crate::library::Library;
use crate::plain;
use crate::side::OnReference;
use calls::layout::SCREEN;
use calls::{Buffers, Call, FontsLent, Painting};
use reference::Reference;
use std::hint::black_box;

pub fn rows(core: Option<Library>) -> Vec<Row> {
    vec![
        cue("cue, two lines of 18 bytes, plain Rust copies", bytes(18), core),
        cue("cue, two lines of 9 pairs, plain Rust copies", pairs(9, 176, 161), core),
        cursor_and_clock("cursor and clock, plain Rust copies", core),
    ]
}

fn cue(name: &str, text: Vec<u8>, core: Option<Library>) -> Row {
    let print = Call::Print { text };
    let shown = vec![Call::Cls, print.clone(), Call::Newline, print];
    let shown_by_core = shown.clone();
    let rust = OnReference::new(&opened(), move |reference: &mut Reference, panel: &mut [u8]| {
        for call in black_box(&shown) {
            reference.call_uncaught(call);
        }
        reference.flush_alone();
        copy_dirty(reference, panel);
    });
    let flush = Call::Flush { fonts: FontsLent::whole(vec![]) };
    Row::new(name, rust).with_core(core, opened(), move |core, buffers| {
        for call in black_box(&shown_by_core).iter().chain([&flush]) {
            core.answer(call, buffers.lend(call));
        }
        send_all(core, buffers);
    })
}

fn cursor_and_clock(name: &str, core: Option<Library>) -> Row {
    let clock = Painting { address: 20_000, x: 96, y: 64, width: 64, height: 16, mode: 2 };
    let shown = [Call::BlinkCursor, clock.by_bytes()];
    let shown_by_core = shown.clone();
    let rust = OnReference::new(&opened(), move |reference: &mut Reference, panel: &mut [u8]| {
        for call in black_box(&shown) {
            reference.call_uncaught(call);
        }
        copy_dirty(reference, panel);
    });
    Row::new(name, rust).with_core(core, opened(), move |core, buffers| {
        for call in black_box(&shown_by_core) {
            core.answer(call, buffers.lend(call));
        }
        send_all(core, buffers);
    })
}

fn copy_dirty(reference: &mut Reference, panel: &mut [u8]) {
    let [left, top, right, bottom] = reference.call_uncaught(&Call::TakeDirtyArea).map(|side| side as usize);
    let screen = &reference.memory()[SCREEN_BASE..][..SCREEN];
    for line in top..bottom {
        plain::copy_line(screen, panel, line, left, right);
    }
}

/// To panel 0 alone; the others' sends would cost the same again.
fn send_all(core: Library, buffers: &mut Buffers) {
    let send = Call::Send { number: 0 };
    while core.answer(&send, buffers.lend(&send)).is_some_and(|answer| answer.numbers[0] == 1) {}
}
