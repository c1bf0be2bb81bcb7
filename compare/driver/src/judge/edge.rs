//! Drawings with edge flag 1 that leave the glass: the reference knows flag 0 alone.

use super::Judge;
use super::area::{LAST_X, LAST_Y};
use calls::Call;
use calls::layout::{EDGE, GRAPHICS_BASE, SCREEN, word};

const STOP: u8 = 1;

impl Judge {
    /// The reference clamps what stops in the model. It marks the same, and its pixels are the same but for
    /// those that lie at the edge: there it goes on from what the model left.
    pub(super) fn stop_in_reference(&mut self) {
        let base = word(&self.own.model.record, GRAPHICS_BASE) as usize;
        self.reference.load_edge(&self.own.model.memory[base..base + SCREEN]);
    }
}

/// Whether this accepted call, made with the record as it stood before, is such a drawing.
pub fn stops(call: &Call, before: &[u8]) -> bool {
    before[EDGE] == STOP && leaves_glass(call)
}

/// Whether a horizontal line of this accepted call lies beyond the glass, or a part of one: there one that is
/// clamped draws in the last column or the last line, and one that stops nothing.
fn leaves_glass(call: &Call) -> bool {
    match *call {
        Call::DrawLine { x1, y1, x2, y2, .. } => y1 == y2 && beyond(x1.max(x2).into(), y1.into()),
        Call::DrawBox { x1, y1, x2, y2, .. } => beyond(x1.max(x2).into(), y1.max(y2).into()),
        Call::DrawCircle { x, y, r, fill, .. } => fill == 1 && disc((x, y), (r, r)),
        Call::DrawEllipse { x, y, rx, ry, fill, .. } => fill == 1 && disc((x, y), (rx, ry)),
        _ => false,
    }
}

fn beyond(right: u32, bottom: u32) -> bool {
    right > LAST_X || bottom > LAST_Y
}

/// One with two zero radii is a point. One that wraps comes back from beyond the last byte.
fn disc((x, y): (u8, u8), (rx, ry): (u8, u8)) -> bool {
    let (right, bottom) = (x as u32 + rx as u32, y as u32 + ry as u32);
    (rx > 0 || ry > 0) && (rx > x || ry > y || beyond(right, bottom))
}

#[test]
fn on_the_glass_and_beyond() {
    let line = |x1, x2, y2| Call::DrawLine { x1, y1: 79, x2, y2, mode: 0 };
    assert!(!leaves_glass(&line(159, 0, 79)) && leaves_glass(&line(160, 0, 79)));
    assert!(!leaves_glass(&line(160, 0, 78)) && !leaves_glass(&line(160, 160, 255)));
    assert!(leaves_glass(&Call::DrawLine { x1: 0, y1: 80, x2: 0, y2: 80, mode: 3 }));
    for fill in [0, 1] {
        let drawn = |x1, y1| leaves_glass(&Call::DrawBox { x1, y1, x2: 3, y2: 3, fill, mode: 0 });
        assert!(!drawn(159, 79) && drawn(160, 79) && drawn(159, 80));
    }
    let ellipse = |x, y, rx, ry, fill| leaves_glass(&Call::DrawEllipse { x, y, rx, ry, fill, mode: 0 });
    assert!(!ellipse(150, 75, 9, 4, 1) && ellipse(150, 75, 10, 4, 1) && ellipse(150, 75, 9, 5, 1));
    assert!(ellipse(3, 9, 4, 1, 1) && ellipse(9, 3, 1, 4, 1) && !ellipse(4, 4, 4, 4, 1));
    assert!(!ellipse(255, 255, 0, 0, 1) && ellipse(255, 255, 0, 1, 1) && !ellipse(150, 75, 99, 99, 0));
    assert!(leaves_glass(&Call::DrawCircle { x: 2, y: 9, r: 3, fill: 1, mode: 0 }));
    assert!(!leaves_glass(&Call::DrawPoint { x: 200, y: 200, mode: 0 }));
}
