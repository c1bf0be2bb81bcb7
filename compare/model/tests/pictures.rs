//! Document 01's known pictures, each with dirty and owed empty before it; one of an empty GB row, which
//! change request 2 takes out of GB; and some of the lines that stop at the edge, of change request 5.

use calls::layout::*;
use calls::{Answer, Buffers, Call, FontsLent};
use std::ops::Range;

struct Screen(Buffers);

const GRAPHICS: usize = 4096;

const NOTHING: Vec<[u16; 4]> = vec![];

/// The whole screen, band by band.
fn whole() -> Vec<[u16; 4]> {
    (0..5).map(|band| [0, 16 * band, 160, 16 * band + 16]).collect()
}

/// What the script program sends.
const SEND: Call = Call::Send { number: 0 };

impl Screen {
    fn new() -> Self {
        Self::under(0)
    }

    /// Opened with this edge flag.
    fn under(edge: u8) -> Self {
        let mut screen = Self(Buffers::zero());
        screen.call(Call::Open { graphics_base: 4096, text_base: 8192, version: 1, keys: [0; 8], edge });
        for _ in 0..80 {
            for number in 0..PANELS as u8 {
                screen.call(Call::Send { number });
            }
        }
        assert_eq!(screen.owed(), NOTHING);
        screen
    }

    fn call(&mut self, call: Call) -> Answer {
        model::answer(&call, self.0.lend(&call))
    }

    fn dirty(&self) -> [u16; 4] {
        four(&self.0.record, DIRTY)
    }

    /// What every panel is owed, those bands that are not empty, each within its lines.
    fn owed(&self) -> Vec<[u16; 4]> {
        let record = &self.0.record;
        let bytes = [0, 1, 2, 3].map(|panel| &record[owed_part(panel)]);
        assert_eq!(bytes, [bytes[0]; PANELS]);
        let rects = (0..BANDS).map(|band| (16 * band as u16, four(record, owed(0, band))));
        let rects: Vec<_> = rects.filter(|(_, rect)| *rect != [0; 4]).collect();
        assert!(rects.iter().all(|(top, rect)| *top <= rect[1] && rect[3] <= top + 16), "{rects:?}");
        rects.into_iter().map(|(_, rect)| rect).collect()
    }

    /// A line of the first two cells.
    fn first_cells(&self, line: usize) -> [u8; 2] {
        [0, 1].map(|column| self.0.memory[GRAPHICS + line * LINE + column])
    }

    /// All pixels that are set.
    fn pixels(&self) -> Vec<(usize, usize)> {
        let screen = &self.0.memory[GRAPHICS..GRAPHICS + SCREEN];
        let all = (0..HEIGHT).flat_map(|y| (0..WIDTH).map(move |x| (x, y)));
        all.filter(|(x, y)| screen[y * LINE + x / 8] & 0x80 >> (x % 8) != 0).collect()
    }
}

#[test]
fn points() {
    let mut screen = Screen::new();
    let before = screen.0.clone();
    screen.call(Call::DrawPoint { x: 160, y: 0, mode: 1 });
    assert_eq!(screen.0, before);
    screen.call(Call::DrawPoint { x: 5, y: 5, mode: 3 });
    assert_eq!((screen.dirty(), screen.owed()), ([5, 5, 6, 6], vec![[5, 5, 6, 6]]));
    assert_eq!(screen.pixels(), []);
}

#[test]
fn lines() {
    let mut screen = Screen::new();
    screen.call(Call::DrawLine { x1: 200, y1: 90, x2: 210, y2: 90, mode: 1 });
    assert_eq!(screen.pixels(), [(159, 79)]);
    assert_eq!((screen.dirty(), screen.owed()), ([200, 90, 211, 91], vec![[159, 79, 160, 80]]));

    let mut screen = Screen::new();
    screen.call(Call::DrawLine { x1: 0, y1: 0, x2: 2, y2: 1, mode: 1 });
    assert_eq!(screen.pixels(), [(0, 0), (1, 0), (2, 1)]);
}

#[test]
fn boxes() {
    let mut screen = Screen::new();
    screen.call(Call::DrawBox { x1: 0, y1: 78, x2: 7, y2: 80, fill: 1, mode: 2 });
    assert_eq!(screen.pixels(), (0..8).map(|x| (x, 78)).collect::<Vec<_>>());
}

/// Pixels, dirty, and what is owed.
type Drawn = (Vec<(usize, usize)>, [u16; 4], Vec<[u16; 4]>);

/// What a call draws on an empty screen, marks and owes with this edge flag.
fn drawn(call: Call, edge: u8) -> Drawn {
    let mut screen = Screen::under(edge);
    assert!(screen.call(call).accepted());
    (screen.pixels(), screen.dirty(), screen.owed())
}

/// The pixels of these columns and rows.
fn filled(columns: Range<usize>, rows: Range<usize>) -> Vec<(usize, usize)> {
    rows.flat_map(|y| columns.clone().map(move |x| (x, y))).collect()
}

#[test]
fn lines_that_stop() {
    let line = |x1, y1, x2| Call::DrawLine { x1, y1, x2, y2: y1, mode: 1 };
    let dirty = [200, 90, 211, 91];
    assert_eq!(drawn(line(200, 90, 210), 1), (vec![], dirty, NOTHING));
    assert_eq!(drawn(line(200, 90, 210), 0), (vec![(159, 79)], dirty, vec![[159, 79, 160, 80]]));
    let ten = (filled(150..160, 79..80), [150, 79, 171, 80], vec![[150, 79, 160, 80]]);
    assert_eq!(drawn(line(150, 79, 170), 1), ten);
    assert_eq!(drawn(line(170, 79, 150), 1), ten);
    assert_eq!(drawn(line(3, 80, 9), 1), (vec![], [3, 80, 10, 81], NOTHING));
    assert_eq!(drawn(line(160, 5, 170), 1), (vec![], [160, 5, 171, 6], NOTHING));
    let unknown = Call::DrawLine { x1: 158, y1: 79, x2: 255, y2: 79, mode: 3 };
    assert_eq!(drawn(unknown, 1), (vec![(158, 79), (159, 79)], [158, 79, 256, 80], vec![[158, 79, 160, 80]]));
}

#[test]
fn boxes_that_stop() {
    let (dirty, owed) = ([0, 78, 8, 81], vec![[0, 78, 8, 80]]);
    let bar = Call::DrawBox { x1: 0, y1: 78, x2: 7, y2: 80, fill: 1, mode: 2 };
    assert_eq!(drawn(bar.clone(), 1), (filled(0..8, 78..80), dirty, owed.clone()));
    assert_eq!(drawn(bar, 0), (filled(0..8, 78..79), dirty, owed));
    // Its upper horizontal is cut, its left vertical as ever; the others are beyond the glass.
    let outline = Call::DrawBox { x1: 150, y1: 70, x2: 170, y2: 90, fill: 0, mode: 1 };
    let pixels = [filled(150..160, 70..71), filled(150..151, 71..80)].concat();
    assert_eq!(drawn(outline, 1), (pixels, [150, 70, 171, 91], vec![[150, 70, 160, 80]]));
    for fill in [0, 1] {
        let below = Call::DrawBox { x1: 5, y1: 80, x2: 9, y2: 99, fill, mode: 1 };
        assert_eq!(drawn(below, 1), (vec![], [5, 80, 10, 100], NOTHING));
    }
}

#[test]
fn discs_that_stop() {
    let disc = |x, y, r| Call::DrawCircle { x, y, r, fill: 1, mode: 1 };
    assert_eq!(drawn(disc(10, 82, 2), 1), (vec![], [8, 80, 160, 85], NOTHING));
    let clamped = filled(8..13, 79..80);
    assert_eq!(drawn(disc(10, 82, 2), 0), (clamped.clone(), [8, 80, 160, 85], vec![[8, 79, 160, 80]]));
    assert_eq!(drawn(disc(10, 81, 2), 1), (clamped, [8, 79, 160, 84], vec![[8, 79, 160, 80]]));
    assert_eq!(drawn(disc(170, 40, 5), 1), (vec![], [165, 35, 176, 80], NOTHING));
    // The rule for a left end that wraps, and the mark of a disc that wraps, stay.
    let dirty = [0, 0, 160, 80];
    assert_eq!(drawn(disc(1, 82, 2), 1), (vec![], dirty, whole()));
    let wrapped = drawn(disc(1, 40, 2), 1);
    assert_eq!((wrapped.0, wrapped.1), (filled(0..4, 38..43), dirty));
}

#[test]
fn circles() {
    let mut screen = Screen::new();
    screen.call(Call::DrawCircle { x: 10, y: 10, r: 1, fill: 0, mode: 1 });
    assert_eq!(screen.pixels(), [(9, 10), (11, 10)]);

    let mut screen = Screen::new();
    screen.call(Call::DrawCircle { x: 10, y: 10, r: 2, fill: 0, mode: 1 });
    let mut parts = vec![];
    for (dx, dy) in [(2, 0), (2, 1), (2, 2), (0, 2)] {
        for x in [10 - dx, 10 + dx] {
            for y in [10 - dy, 10 + dy] {
                parts.push((x, y));
            }
        }
    }
    parts.sort_by_key(|(x, y)| (*y, *x));
    parts.dedup();
    assert_eq!(screen.pixels(), parts);

    for (r, code) in [(127, 0), (128, 6)] {
        assert_eq!(screen.call(Call::DrawCircle { x: 10, y: 10, r, fill: 0, mode: 1 }).code, code);
    }
}

#[test]
fn bitmaps() {
    let mut screen = Screen::new();
    screen.0.memory[9000] = 0x81;
    screen.0.memory[GRAPHICS] = 0xfc;
    let paint = |address, x, width| Call::PaintBitmap { address, x, y: 0, width, height: 1, mode: 0 };
    screen.call(paint(9000, -1, 8));
    assert_eq!(screen.pixels(), [(6, 0)]);
    assert_eq!(screen.dirty(), [0, 0, 7, 1]);
    assert_eq!(screen.call(paint(65_535, 0, 9)).code, 5);
    assert_eq!(screen.call(paint(65_534, 0, 9)).code, 0);
}

#[test]
fn empty_gb_rows() {
    let shown = |extra_list: Vec<u8>| {
        let mut screen = Screen::new();
        screen.call(Call::Print { text: vec![0xaf, 0xc4] });
        screen.call(Call::Flush { fonts: FontsLent::whole(extra_list) });
        screen
    };
    let fonts = FontsLent::whole(vec![]);
    let digit = |digit: u8, line: usize| fonts.ascii8()[8 * digit as usize + line];
    let (codes, listed) = (shown(vec![]), shown(vec![0xc4, 0xaf, 96, 0, 0, 0]));
    for line in 0..8 {
        assert_eq!(codes.first_cells(line), [digit(b'A', line), digit(b'C', line)]);
        assert_eq!(codes.first_cells(8 + line), [digit(b'F', line), digit(b'4', line)]);
    }
    for line in 0..16 {
        assert_eq!(listed.first_cells(line), fonts.extra_font()[96 + 2 * line..][..2]);
    }
    assert_ne!(codes.pixels(), listed.pixels());
    for screen in [codes, listed] {
        assert_eq!((screen.dirty(), screen.owed()), ([0, 0, 160, 80], whole()));
    }
}

#[test]
fn bases() {
    let mut screen = Screen::new();
    for (graphics_base, code) in [(63_935, 0), (63_936, 3)] {
        let open = Call::Open { graphics_base, text_base: 0, version: 0, keys: [0; 8], edge: 0 };
        assert_eq!(screen.call(open).code, code);
    }
}

#[test]
fn scripts() {
    let open = Call::Open { graphics_base: 4096, text_base: 8192, version: 1, keys: [0; 8], edge: 0 };
    let point = Call::DrawPoint { x: 3, y: 0, mode: 1 };
    let sent = Answer::done([1, 0, 0, 160]);
    let mut screen = Screen(Buffers::zero());
    screen.call(open.clone());
    screen.call(point.clone());
    assert_eq!(screen.call(SEND), sent);
    assert_eq!(screen.0.panels[0][0], 0x10);

    let mut screen = Screen(Buffers::zero());
    screen.call(open);
    assert_eq!(screen.call(SEND), sent);
    screen.call(point);
    assert_eq!(screen.0.panels[0][0], 0);
    assert_eq!(four(&screen.0.record, owed(0, 0)), [3, 0, 4, 1]);
}
