//! Ellipses. The order of steps is written here over whole numbers, with the 8-bit sums of the
//! source left out: for radii up to 127 none of them wraps.

use crate::canvas::{Canvas, Mark};
use crate::lines::{dot, horizontal, point};
use crate::modes::DrawMode;
use crate::rect::{Rect, WHOLE_SCREEN};
use calls::Refusal;
use calls::layout::{HEIGHT, WIDTH};

const LARGEST_RADIUS: usize = 127;
const MOST_STEPS: usize = 512;

/// An ellipse that is drawn: the parts in the order in which they come, each a distance from
/// the centre to be mirrored. `None` for what the two early returns answer.
pub fn parts(
    rx: usize,
    ry: usize,
    fill: bool,
    mode: DrawMode,
) -> Result<Option<Vec<(usize, usize)>>, Refusal> {
    if (rx == 0 && ry == 0) || (!fill && mode == DrawMode::Unknown) {
        return Ok(None);
    }
    if rx > LARGEST_RADIUS || ry > LARGEST_RADIUS {
        return Err(Refusal::Radius);
    }
    walk(rx, ry).map(Some).ok_or(Refusal::Endless)
}

/// Walk the quarter from (rx, 0) until the horizontal distance is 0. `across` x-steps and `down`
/// y-steps are done; a y-step is due while the walk on the circle of the larger radius, of which
/// `across` and `down` are the coordinates, lies inside it.
fn walk(rx: usize, ry: usize) -> Option<Vec<(usize, usize)>> {
    let r = rx.max(ry);
    let mut parts = vec![(rx, 0)];
    let (mut across, mut down) = (0, 0);
    let (mut x, mut y) = (rx, 0);
    let mut past_start = false;
    for _ in 0..MOST_STEPS {
        if across * across + down * down < 2 * r * across {
            down += 1;
            if down * ry / r > y {
                y = down * ry / r;
                if !past_start && y <= 2 {
                    parts.push((rx, y));
                } else {
                    past_start = true;
                    parts.push((x, y));
                }
            }
        } else {
            across += 1;
            if across * rx / r > rx - x {
                x = rx - across * rx / r;
                if x + 1 != rx {
                    parts.push((x, y));
                }
            }
        }
        if x == 0 {
            return Some(parts);
        }
    }
    None
}

/// Centre sums wrap at 256.
fn minus(centre: usize, distance: usize) -> usize {
    (centre + 256 - distance) % 256
}

fn plus(centre: usize, distance: usize) -> usize {
    (centre + distance) % 256
}

/// A filled part's line; one whose left end has wrapped past its right one starts at column 0.
fn part_line(canvas: &mut Canvas, x: usize, dx: usize, y: usize, mode: DrawMode) {
    let (left, right) = (minus(x, dx), plus(x, dx));
    horizontal(canvas, if left > right { 0 } else { left }, right, y, mode);
}

fn draw_part(
    canvas: &mut Canvas,
    (x, y): (usize, usize),
    (dx, dy): (usize, usize),
    fill: bool,
    mode: DrawMode,
) {
    for row in [minus(y, dy), plus(y, dy)] {
        if fill {
            part_line(canvas, x, dx, row, mode);
        } else {
            dot(canvas, minus(x, dx), row, mode);
            dot(canvas, plus(x, dx), row, mode);
        }
    }
}

/// Whole screen where a part wraps; else from the left and top ends to at least 160 and 80.
fn marked((x, y): (usize, usize), (rx, ry): (usize, usize)) -> Rect {
    if rx > x || ry > y || x + rx > 255 || y + ry > 255 {
        WHOLE_SCREEN
    } else {
        Rect::new(x - rx, y - ry, (x + rx + 1).max(WIDTH), (y + ry + 1).max(HEIGHT))
    }
}

pub fn ellipse(
    canvas: &mut Canvas,
    centre: (usize, usize),
    (rx, ry): (usize, usize),
    parts: &[(usize, usize)],
    fill: bool,
    mode: DrawMode,
) -> Option<Mark> {
    for part in parts {
        draw_part(canvas, centre, *part, fill, mode);
    }
    Some(Mark { rect: marked(centre, (rx, ry)), lowers: fill })
}

/// What the early returns draw: a point for two zero radii, nothing for an outline in Unknown.
pub fn early(
    canvas: &mut Canvas,
    (x, y): (usize, usize),
    (rx, ry): (usize, usize),
    mode: DrawMode,
) -> Option<Mark> {
    if rx == 0 && ry == 0 { point(canvas, x, y, mode) } else { None }
}
