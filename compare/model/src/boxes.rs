//! Boxes: filled, every row a horizontal line; as an outline, two horizontals and two verticals.

use crate::canvas::{Canvas, Mark};
use crate::lines::{horizontal, vertical};
use crate::modes::DrawMode;
use crate::rect::Rect;

pub fn draw_box(
    canvas: &mut Canvas,
    (x1, y1): (usize, usize),
    (x2, y2): (usize, usize),
    fill: bool,
    mode: DrawMode,
) -> Option<Mark> {
    let (left, right) = (x1.min(x2), x1.max(x2));
    let (top, bottom) = (y1.min(y2), y1.max(y2));
    if fill {
        for y in top..=bottom {
            horizontal(canvas, left, right, y, mode);
        }
    } else {
        horizontal(canvas, left, right, top, mode);
        horizontal(canvas, left, right, bottom, mode);
        if mode != DrawMode::Unknown {
            vertical(canvas, left, top, bottom, mode);
            vertical(canvas, right, top, bottom, mode);
        }
    }
    Some(Mark::lowering(Rect::new(left, top, right + 1, bottom + 1)))
}
