//! Circles and ellipses.

use crate::common::{rect, set_pixels};
use crate::drawing::{MODES, drawn, open, striped};
use caption::{DrawMode, Fill, Picture, Rect};

/// The smallest rectangle round the set pixels.
fn bounds(picture: Picture<'_>) -> Rect {
    let (columns, lines): (Vec<u16>, Vec<u16>) = set_pixels(picture).into_iter().unzip();
    let range = |of: &[u16]| (*of.iter().min().unwrap(), *of.iter().max().unwrap());
    let ((left, right), (top, bottom)) = (range(&columns), range(&lines));
    rect(left, top, right + 1, bottom + 1)
}

#[test]
fn circles_and_ellipses_have_their_radii() {
    let mut circle = open();
    circle.draw_circle(100, 40, 20, Fill::Filled, DrawMode::Or).unwrap();
    assert_eq!(bounds(circle.screen()), rect(80, 20, 121, 61));
    assert_eq!(circle.dirty(), rect(80, 20, 160, 80));
    assert!(circle.screen().pixel(100, 40));

    let mut ellipse = open();
    ellipse.draw_ellipse(100, 40, 30, 10, Fill::Outline, DrawMode::Or).unwrap();
    assert_eq!(bounds(ellipse.screen()), rect(70, 30, 131, 51));
    assert_eq!(ellipse.dirty(), rect(70, 30, 160, 80));
    assert!(!ellipse.screen().pixel(100, 40));
}

#[test]
fn the_small_circles() {
    let rows: [(u16, &[u16]); 5] =
        [(8, &[8, 10, 12]), (9, &[8, 12]), (10, &[8, 12]), (11, &[8, 12]), (12, &[8, 10, 12])];
    let two = rows.iter().flat_map(|(y, columns)| columns.iter().map(move |x| (*x, *y)));
    for (radius, pixels) in [(2, two.collect()), (1, vec![(9, 10), (11, 10)]), (0, vec![(10, 10)])] {
        let mut screen = open();
        screen.draw_circle(10, 10, radius, Fill::Outline, DrawMode::Or).unwrap();
        assert_eq!(set_pixels(screen.screen()), pixels);
        screen.draw_ellipse(10, 10, radius, radius, Fill::Outline, DrawMode::Clear).unwrap();
        assert_eq!(set_pixels(screen.screen()), []);
    }
}

/// Of radius 2 round (x, 10), line 11: filled, its five pixels are drawn once in a horizontal line; else its ends alone.
fn line_eleven(x: u16, fill: Fill, mode: DrawMode) -> Vec<(u16, bool)> {
    let filled = fill == Fill::Filled;
    let pixel = |column: u16| {
        let set = column % 2 == 0;
        let touched = filled || column == x - 2 || column == x + 2;
        (column, if touched { drawn(mode, set, filled) } else { set })
    };
    (x - 2..=x + 2).map(pixel).collect()
}

#[test]
fn circles_and_ellipses_in_each_mode() {
    for (mode, fill) in MODES.into_iter().flat_map(|mode| [(mode, Fill::Outline), (mode, Fill::Filled)]) {
        for x in [11, 12] {
            let (mut circle, mut ellipse) = (striped(), striped());
            circle.draw_circle(x, 10, 2, fill, mode).unwrap();
            ellipse.draw_ellipse(x, 10, 2, 2, fill, mode).unwrap();
            assert_eq!((circle.screen(), circle.dirty()), (ellipse.screen(), ellipse.dirty()));
            for (column, set) in line_eleven(x.into(), fill, mode) {
                assert_eq!(circle.screen().pixel(column, 11), set, "column {column}, {fill:?} in {mode:?}");
            }
            let marked = fill == Fill::Filled || mode != DrawMode::Unknown;
            let mark = if marked { rect(u16::from(x) - 2, 8, 160, 80) } else { Rect::default() };
            assert_eq!(circle.dirty(), mark, "{fill:?} in {mode:?}");
        }
    }
}
