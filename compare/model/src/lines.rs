//! Document 01's section "Points and lines", and the lines of change request 5 that stop at the edge.

use crate::canvas::{Canvas, Mark};
use crate::modes::{DrawMode, Edge};
use crate::rect::Rect;
use calls::layout::{HEIGHT, WIDTH};
use std::mem::swap;

pub fn on_screen(x: usize, y: usize) -> bool {
    x < WIDTH && y < HEIGHT
}

/// One pixel of a point or of a line that isn't horizontal; off screen nothing, and nothing in
/// Unknown.
pub fn dot(canvas: &mut Canvas, x: usize, y: usize, mode: DrawMode) {
    if on_screen(x, y) {
        match mode {
            DrawMode::Clear => canvas.put(x, y, |_| false),
            DrawMode::Or => canvas.put(x, y, |_| true),
            DrawMode::Xor => canvas.put(x, y, |bit| !bit),
            DrawMode::Unknown => {}
        }
    }
}

pub fn point(canvas: &mut Canvas, x: usize, y: usize, mode: DrawMode) -> Option<Mark> {
    dot(canvas, x, y, mode);
    on_screen(x, y).then(|| Mark::plain(Rect::pixel(x, y)))
}

/// The pixels left to right of line y, as the edge flag says; Unknown inverts.
pub fn horizontal(canvas: &mut Canvas, left: usize, right: usize, y: usize, mode: DrawMode) {
    let mode = if mode == DrawMode::Unknown { DrawMode::Xor } else { mode };
    match canvas.edge {
        Edge::Clamp => clamped(canvas, left, right, y, mode),
        Edge::Stop => stopped(canvas, left, right, y, mode),
    }
}

/// Clamps x to 159 and y to 79.
fn clamped(canvas: &mut Canvas, left: usize, right: usize, y: usize, mode: DrawMode) {
    for x in left.min(WIDTH - 1)..=right.min(WIDTH - 1) {
        dot(canvas, x, y.min(HEIGHT - 1), mode);
    }
}

/// Those of the pixels that are on the screen, each where it is.
fn stopped(canvas: &mut Canvas, left: usize, right: usize, y: usize, mode: DrawMode) {
    for x in left..=right {
        dot(canvas, x, y, mode);
    }
}

pub fn vertical(canvas: &mut Canvas, x: usize, top: usize, bottom: usize, mode: DrawMode) {
    for y in top..=bottom {
        dot(canvas, x, y, mode);
    }
}

/// The points of a line that is neither horizontal nor vertical, x1 < x2, by 8-bit error sums.
fn sloping(canvas: &mut Canvas, (x1, y1): (usize, usize), (x2, y2): (usize, usize), mode: DrawMode) {
    let width = x2 - x1;
    let height = y1.abs_diff(y2);
    let longer = width.max(height);
    let step_y = if y2 > y1 { 1 } else { 255 };
    let (mut x, mut y) = (x1, y1);
    let (mut error_x, mut error_y) = (0, 0);
    for _ in 0..=longer {
        dot(canvas, x, y, mode);
        error_x = (error_x + width) % 256;
        error_y = (error_y + height) % 256;
        if error_x >= longer {
            error_x -= longer;
            x += 1;
        }
        if error_y >= longer {
            error_y -= longer;
            y = (y + step_y) % 256;
        }
    }
}

pub fn line(
    canvas: &mut Canvas,
    (mut x1, mut y1): (usize, usize),
    (mut x2, mut y2): (usize, usize),
    mode: DrawMode,
) -> Option<Mark> {
    if x1 > x2 {
        swap(&mut x1, &mut x2);
        swap(&mut y1, &mut y2);
    }
    let rect = Rect::new(x1, y1.min(y2), x2 + 1, y1.max(y2) + 1);
    if y1 == y2 {
        horizontal(canvas, x1, x2, y1, mode);
        return Some(Mark::lowering(rect));
    }
    if mode == DrawMode::Unknown {
        return None;
    }
    if x1 == x2 {
        vertical(canvas, x1, y1.min(y2), y1.max(y2), mode);
    } else {
        sloping(canvas, (x1, y1), (x2, y2), mode);
    }
    Some(Mark::plain(rect))
}
