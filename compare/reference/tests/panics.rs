//! Overflow checks are on: the reference panics where document 01 says that it does.

use calls::Call;
use reference::{Reference, Told};

#[test]
fn a_line_to_255_panics_after_its_last_point() {
    let mut reference = Reference::default();
    let line = Call::DrawLine { x1: 0, y1: 0, x2: 255, y2: 1, mode: 1 };
    assert_eq!(reference.call(&line), Told::Panicked);
    assert_eq!(reference.memory()[..20], [0xff; 20]);
}

#[test]
fn an_ellipse_to_255_panics() {
    let mut reference = Reference::default();
    let ellipse = Call::DrawEllipse { x: 128, y: 40, rx: 127, ry: 3, fill: 0, mode: 1 };
    assert_eq!(reference.call(&ellipse), Told::Panicked);
}

#[test]
fn a_source_past_memory_panics() {
    let mut reference = Reference::default();
    let paint = Call::PaintBitmap { address: 65_535, x: 0, y: 0, width: 9, height: 1, mode: 0 };
    assert_eq!(reference.call(&paint), Told::Panicked);
}
