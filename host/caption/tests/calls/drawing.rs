//! Points, lines and boxes; whether a pixel is set; the dirty area and what is owed.

use crate::common::{Buffers, Kind, rect, set_pixels};
use caption::{DrawMode, Edge, Fill, Rect, Refusal, Screen, Setup};

pub const MODES: [DrawMode; 4] = [DrawMode::Clear, DrawMode::Or, DrawMode::Xor, DrawMode::Unknown];

/// A pixel that is drawn, as a part of a horizontal line or not.
type Drawn = (u16, u16, bool);

struct Shape {
    name: &'static str,
    draw: fn(&mut Screen, DrawMode) -> Result<(), Refusal>,
    pixels: Vec<Drawn>,
    mark: Rect,
    /// Whether it marks in Unknown.
    marks_unknown: bool,
}

fn shapes() -> Vec<Shape> {
    let outline = across(30, 37, 5).chain(across(30, 37, 9)).chain(down(30, 5, 9)).chain(down(37, 5, 9));
    vec![
        Shape {
            name: "point",
            draw: |screen, mode| screen.draw_point(3, 70, mode),
            pixels: vec![(3, 70, false)],
            mark: rect(3, 70, 4, 71),
            marks_unknown: true,
        },
        Shape {
            name: "horizontal line",
            draw: |screen, mode| screen.draw_line(13, 20, 10, 20, mode),
            pixels: across(10, 13, 20).collect(),
            mark: rect(10, 20, 14, 21),
            marks_unknown: true,
        },
        Shape {
            name: "vertical line",
            draw: |screen, mode| screen.draw_line(3, 14, 3, 17, mode),
            pixels: down(3, 14, 17).collect(),
            mark: rect(3, 14, 4, 18),
            marks_unknown: false,
        },
        Shape {
            name: "falling line",
            draw: |screen, mode| screen.draw_line(100, 7, 103, 10, mode),
            pixels: (0..4).map(|i| (100 + i, 7 + i, false)).collect(),
            mark: rect(100, 7, 104, 11),
            marks_unknown: false,
        },
        Shape {
            name: "rising line",
            draw: |screen, mode| screen.draw_line(103, 7, 100, 10, mode),
            pixels: (0..4).map(|i| (103 - i, 7 + i, false)).collect(),
            mark: rect(100, 7, 104, 11),
            marks_unknown: false,
        },
        Shape {
            name: "outlined box",
            draw: |screen, mode| screen.draw_box(30, 9, 37, 5, Fill::Outline, mode),
            pixels: outline.collect(),
            mark: rect(30, 5, 38, 10),
            marks_unknown: true,
        },
        Shape {
            name: "filled box",
            draw: |screen, mode| screen.draw_box(37, 5, 30, 9, Fill::Filled, mode),
            pixels: (5..=9).flat_map(|y| across(30, 37, y)).collect(),
            mark: rect(30, 5, 38, 10),
            marks_unknown: true,
        },
    ]
}

fn across(left: u16, right: u16, y: u16) -> impl Iterator<Item = Drawn> {
    (left..=right).map(move |x| (x, y, true))
}

fn down(x: u16, top: u16, bottom: u16) -> impl Iterator<Item = Drawn> {
    (top..=bottom).map(move |y| (x, y, false))
}

/// What drawing makes of a pixel.
pub fn drawn(mode: DrawMode, set: bool, horizontal: bool) -> bool {
    match mode {
        DrawMode::Clear => false,
        DrawMode::Or => true,
        DrawMode::Xor => !set,
        DrawMode::Unknown => set != horizontal,
    }
}

pub fn open() -> Screen {
    Screen::open(&Setup::new()).unwrap()
}

/// Every second pixel of the screen set, and nothing dirty.
pub fn striped() -> Screen {
    let mut screen = open();
    screen.load(screen.graphics_base(), &[0xaa; 1_600]).unwrap();
    screen.take_dirty_area().unwrap();
    screen
}

/// The picture of a shape over these stripes.
fn expected(shape: &Shape, mode: DrawMode) -> Vec<(u16, u16)> {
    let mut pixels = set_pixels(striped().screen());
    for &(x, y, horizontal) in &shape.pixels {
        let was = pixels.contains(&(x, y));
        pixels.retain(|pixel| *pixel != (x, y));
        if drawn(mode, was, horizontal) {
            pixels.push((x, y));
        }
    }
    pixels.sort_by_key(|&(x, y)| (y, x));
    pixels
}

#[test]
fn each_shape_in_each_mode() {
    for shape in shapes() {
        for mode in MODES {
            let mut screen = striped();
            (shape.draw)(&mut screen, mode).unwrap();
            assert!(set_pixels(screen.screen()) == expected(&shape, mode), "{} in {mode:?}", shape.name);
            let marks = mode != DrawMode::Unknown || shape.marks_unknown;
            let mark = if marks { shape.mark } else { Rect::default() };
            assert_eq!(screen.dirty(), mark, "{} in {mode:?}", shape.name);
        }
    }
}

#[test]
fn a_point_off_the_screen_is_nothing() {
    let mut screen = open();
    for (x, y) in [(160, 0), (0, 80), (255, 255)] {
        screen.draw_point(x, y, DrawMode::Or).unwrap();
    }
    assert_eq!((set_pixels(screen.screen()), screen.dirty()), (vec![], Rect::default()));
}

#[test]
fn a_sloped_line_goes_from_end_to_end() {
    let mut screen = open();
    screen.draw_line(0, 0, 2, 1, DrawMode::Or).unwrap();
    assert_eq!(set_pixels(screen.screen()), [(0, 0), (1, 0), (2, 1)]);
}

#[test]
fn what_horizontal_lines_do_at_the_edge() {
    let table = [
        (Edge::Clamp, [200, 90, 210, 90], vec![(159, 79)], rect(200, 90, 211, 91)),
        (Edge::Stop, [200, 90, 210, 90], vec![], rect(200, 90, 211, 91)),
        (Edge::Clamp, [157, 79, 170, 79], vec![(157, 79), (158, 79), (159, 79)], rect(157, 79, 171, 80)),
        (Edge::Stop, [158, 79, 170, 79], vec![(158, 79), (159, 79)], rect(158, 79, 171, 80)),
    ];
    for (edge, [x1, y1, x2, y2], pixels, mark) in table {
        let mut screen = Screen::open(&Setup::new().edge(edge)).unwrap();
        screen.draw_line(x1, y1, x2, y2, DrawMode::Or).unwrap();
        assert_eq!((set_pixels(screen.screen()), screen.dirty()), (pixels, mark));
    }
}

#[test]
fn a_pixel_is_asked_by_column_and_line() {
    let mut screen = open();
    screen.draw_point(3, 70, DrawMode::Or).unwrap();
    screen.draw_point(0, 0, DrawMode::Or).unwrap();
    for (x, y, set) in [(3, 70, true), (70, 3, false), (4, 70, false), (3, 71, false), (0, 0, true)] {
        assert_eq!(screen.check_point(x, y), Ok(set));
    }
    for beyond in [-1, 160, 256, 65_536, i32::MIN, i32::MAX] {
        assert_eq!((screen.check_point(beyond, 0), screen.check_point(0, beyond)), (Ok(false), Ok(false)));
    }
}

#[test]
fn the_dirty_area_is_taken_once() {
    let mut screen = open();
    screen.draw_point(3, 70, DrawMode::Or).unwrap();
    screen.draw_point(100, 40, DrawMode::Or).unwrap();
    let owed = screen.owed(2).unwrap();
    assert_eq!(screen.take_dirty_area(), Ok(rect(3, 40, 101, 71)));
    assert_eq!((screen.take_dirty_area(), screen.dirty()), (Ok(Rect::default()), Rect::default()));
    assert_eq!(screen.owed(2), Ok(owed));
}

#[test]
fn what_is_owed_is_cut_at_the_bands() {
    let mut buffers = Buffers::new();
    let mut screen = buffers.open(&Setup::new(), [Kind::Direct; 4]).unwrap();
    screen.sends(1).for_each(drop);
    screen.draw_line(3, 14, 3, 17, DrawMode::Or).unwrap();
    screen.draw_line(150, 70, 200, 70, DrawMode::Or).unwrap();
    let none = Rect::default();
    let bands = [rect(3, 14, 4, 16), rect(3, 16, 4, 18), none, none, rect(150, 70, 160, 71)];
    assert_eq!(screen.owed(1).unwrap()[..], bands);
    assert_eq!((screen.owed(1).unwrap().lines(), screen.owed(0).unwrap().lines()), (5, 80));
}
