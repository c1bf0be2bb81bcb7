//! Where document 01 says that the reference panics on a call which the port accepts.

use calls::Call;

const UNKNOWN: u8 = 3;

/// Whether the reference panics on this accepted call.
pub fn due(call: &Call) -> bool {
    match *call {
        Call::DrawLine { x1, y1, x2, y2, mode } => line(x1, y1, x2, y2, mode),
        Call::DrawCircle { x, y, r, fill, mode } => ellipse((x, y), (r, r), fill, mode),
        Call::DrawEllipse { x, y, rx, ry, fill, mode } => ellipse((x, y), (rx, ry), fill, mode),
        Call::PaintBitmap { x, y, width, height, .. }
        | Call::PaintBitmapByBytes { x, y, width, height, .. } => {
            width != 0
                && height != 0
                && (x.checked_add(width as i32).is_none() || y.checked_add(height as i32).is_none())
        }
        _ => false,
    }
}

/// A sloping line whose larger x is 255, no steeper than wide: after its last point.
fn line(x1: u8, y1: u8, x2: u8, y2: u8, mode: u8) -> bool {
    let sloping = x1 != x2 && y1 != y2;
    sloping && mode != UNKNOWN && x1.max(x2) == 255 && x1.abs_diff(x2) >= y1.abs_diff(y2)
}

/// A centre plus radius of exactly 255, outside the whole-screen arm: when it marks.
fn ellipse((x, y): (u8, u8), (rx, ry): (u8, u8), fill: u8, mode: u8) -> bool {
    let early = (rx == 0 && ry == 0) || (fill == 0 && mode == UNKNOWN);
    let (right, bottom) = (x as u32 + rx as u32, y as u32 + ry as u32);
    let whole_screen = rx > x || ry > y || right > 255 || bottom > 255;
    !early && !whole_screen && (right == 255 || bottom == 255)
}
