//! Drawings, bitmaps and a poke.

use super::{Row, opened};
use crate::library::Library;
use crate::limits;
use calls::Call;

/// A mark over all bands with as little drawn as can be: the upright sides of an outline are not drawn in
/// Unknown.
pub const TWO_POINTS: Call = Call::DrawBox { x1: 80, y1: 0, x2: 80, y2: 79, fill: 0, mode: 3 };

/// Those that have limits, in each mode, then others.
pub fn rows(core: Option<Library>) -> Vec<Row> {
    let limited = [(0, "clear"), (1, "or"), (2, "xor")].into_iter().flat_map(|(mode, mode_name)| {
        limited(mode).map(|(name, call, limit)| {
            Row::call(format!("{name}, {mode_name}"), call, opened(), core).limit(limit)
        })
    });
    limited.chain(others().map(|(name, call)| Row::call(name, call, opened(), core))).collect()
}

fn limited(mode: u8) -> [(&'static str, Call, f64); 4] {
    let (x1, y1, x2, y2) = (0, 0, 159, 79);
    let (x, y, r) = (80, 40, 40);
    [
        ("box, whole screen", Call::DrawBox { x1, y1, x2, y2, fill: 1, mode }, limits::BOX),
        ("line, long diagonal", Call::DrawLine { x1, y1, x2, y2, mode }, limits::LINE),
        ("circle, radius 40", Call::DrawCircle { x, y, r, fill: 0, mode }, limits::CIRCLE),
        ("disc, radius 40", Call::DrawCircle { x, y, r, fill: 1, mode }, limits::CIRCLE),
    ]
}

fn others() -> [(&'static str, Call); 10] {
    let mode = 2;
    let (x1, y1, x2, y2) = (3, 3, 156, 76);
    let (x, y, rx, ry) = (80, 40, 70, 30);
    [
        ("point", Call::DrawPoint { x: 77, y: 33, mode }),
        ("line, horizontal", Call::DrawLine { x1, y1: 40, x2, y2: 40, mode }),
        ("line, vertical", Call::DrawLine { x1: 80, y1: 0, x2: 80, y2: 79, mode }),
        ("box, outline", Call::DrawBox { x1, y1, x2, y2, fill: 0, mode }),
        ("box, two points 80 lines apart", TWO_POINTS),
        ("box, 154 by 74", Call::DrawBox { x1, y1, x2, y2, fill: 1, mode }),
        ("ellipse, 70 by 30", Call::DrawEllipse { x, y, rx, ry, fill: 0, mode }),
        ("ellipse, 70 by 30, filled", Call::DrawEllipse { x, y, rx, ry, fill: 1, mode }),
        ("bitmap, 64 by 64", Call::PaintBitmap { address: 9000, x: 5, y: 5, width: 64, height: 64, mode: 0 }),
        ("poke", Call::WriteByte { address: 4500, byte: 0x5a }),
    ]
}
