//! Change request 6 by its own words: what is owed to a panel, kept by bands of 16 lines.

use calls::layout::*;
use calls::{Answer, Buffers, Call};

const OPEN: Call = Call::Open { graphics_base: 4096, text_base: 8192, version: 1, keys: [0; 8], edge: 0 };
const EMPTY: [u16; 4] = [0; 4];

struct Screen(Buffers);

impl Screen {
    fn opened() -> Self {
        let mut screen = Self(Buffers::zero());
        assert!(screen.call(OPEN).accepted());
        screen
    }

    /// With nothing owed to panel 2, which the tests send to.
    fn level() -> Self {
        let mut screen = Self::opened();
        (0..80).for_each(|_| assert_eq!(screen.send().numbers[0], 1));
        assert_eq!(screen.owed(), [EMPTY; BANDS]);
        screen
    }

    fn call(&mut self, call: Call) -> Answer {
        model::answer(&call, self.0.lend(&call))
    }

    fn send(&mut self) -> Answer {
        self.call(Call::Send { number: 2 })
    }

    fn owed(&self) -> [[u16; 4]; BANDS] {
        [0, 1, 2, 3, 4].map(|band| four(&self.0.record, owed(2, band)))
    }

    fn in_hand(&self) -> [u16; 4] {
        four(&self.0.record, in_hand(2))
    }

    /// Lines left in hand and the five heights.
    fn lines(&self) -> u16 {
        let height = |rect: [u16; 4]| rect[3] - rect[1];
        height(self.in_hand()) + self.owed().map(height).iter().sum::<u16>()
    }

    /// What is owed after this box on level panels.
    fn owed_by_box(x1: u8, y1: u8, x2: u8, y2: u8) -> [[u16; 4]; BANDS] {
        let mut screen = Self::level();
        assert!(screen.call(Call::DrawBox { x1, y1, x2, y2, fill: 1, mode: 1 }).accepted());
        screen.owed()
    }
}

#[test]
fn open_owes_each_band_its_lines() {
    let due = [0, 16, 32, 48, 64].map(|top| [0, top, 160, top + 16]);
    assert_eq!(Screen::opened().owed(), due);
    assert_eq!(Screen::opened().lines(), 80);
}

#[test]
fn a_mark_is_cut_at_the_edges_of_the_bands() {
    assert_eq!(Screen::owed_by_box(3, 0, 9, 15), [[3, 0, 10, 16], EMPTY, EMPTY, EMPTY, EMPTY]);
    assert_eq!(Screen::owed_by_box(3, 16, 9, 16), [EMPTY, [3, 16, 10, 17], EMPTY, EMPTY, EMPTY]);
    assert_eq!(Screen::owed_by_box(3, 15, 9, 16), [[3, 15, 10, 16], [3, 16, 10, 17], EMPTY, EMPTY, EMPTY]);
    assert_eq!(
        Screen::owed_by_box(0, 20, 159, 70),
        [EMPTY, [0, 20, 160, 32], [0, 32, 160, 48], [0, 48, 160, 64], [0, 64, 160, 71]]
    );
    assert_eq!(Screen::owed_by_box(200, 90, 210, 99), [EMPTY, EMPTY, EMPTY, EMPTY, [159, 79, 160, 80]]);
}

/// And to the band alone that it lies in.
#[test]
fn each_part_is_joined_to_its_band() {
    let mut screen = Screen::level();
    for (x, y) in [(9, 3), (20, 10), (5, 40), (7, 47), (1, 48), (159, 79)] {
        screen.call(Call::DrawPoint { x, y, mode: 1 });
    }
    let due = [[9, 3, 21, 11], EMPTY, [5, 40, 8, 48], [1, 48, 2, 49], [159, 79, 160, 80]];
    assert_eq!(screen.owed(), due);
    screen.call(Call::DrawLine { x1: 30, y1: 10, x2: 31, y2: 50, mode: 1 });
    let due = [[9, 3, 32, 16], [30, 16, 32, 32], [5, 32, 32, 48], [1, 48, 32, 51], [159, 79, 160, 80]];
    assert_eq!(screen.owed(), due);
}

#[test]
fn a_send_takes_the_band_nearest_the_top() {
    let mut screen = Screen::level();
    for (x, y) in [(0, 79), (8, 20), (9, 21)] {
        screen.call(Call::DrawPoint { x, y, mode: 1 });
    }
    assert_eq!(screen.send(), Answer::done([1, 20, 8, 10]));
    assert_eq!(screen.in_hand(), [8, 21, 10, 22]);
    assert_eq!(screen.owed(), [EMPTY, EMPTY, EMPTY, EMPTY, [0, 79, 1, 80]]);
    // What is in hand goes first, whatever comes above it.
    screen.call(Call::DrawPoint { x: 3, y: 0, mode: 1 });
    assert_eq!(screen.send(), Answer::done([1, 21, 8, 10]));
    assert_eq!(screen.in_hand(), EMPTY);
    assert_eq!(screen.send(), Answer::done([1, 0, 3, 4]));
    assert_eq!(screen.send(), Answer::done([1, 79, 0, 1]));
    assert_eq!(screen.send(), Answer::done([0; 4]));
}

/// A cursor at the top and a clock at the bottom: nothing between is sent.
#[test]
fn what_lies_between_is_not_sent() {
    let mut screen = Screen::level();
    screen.call(Call::BlinkCursor);
    screen.call(Call::DrawBox { x1: 96, y1: 64, x2: 159, y2: 79, fill: 1, mode: 2 });
    let sent: Vec<u32> = (0..33)
        .map(|_| screen.send())
        .filter(|sent| sent.numbers[0] == 1)
        .map(|sent| sent.numbers[1])
        .collect();
    assert_eq!(sent, (0..16).chain(64..80).collect::<Vec<_>>());
}

#[test]
fn never_more_than_95_lines_are_left() {
    let mut screen = Screen::opened();
    let mut most = 0;
    for _ in 0..200 {
        screen.send();
        let left = screen.lines();
        screen.call(Call::Cls);
        assert_eq!(screen.lines(), 80 + (left % 16));
        most = most.max(screen.lines());
    }
    assert_eq!(most, 95);
}

/// STATE: neither empty nor a rectangle within its own band.
#[test]
fn a_rectangle_outside_its_band_is_state() {
    for (panel, band) in (0..PANELS).flat_map(|panel| (0..BANDS).map(move |band| (panel, band))) {
        let code = |rect: [u16; 4]| {
            let mut screen = Screen::opened();
            screen.0.record[owed(panel, band)..][..8].copy_from_slice(&rect.map(u16::to_le_bytes).concat());
            screen.call(Call::GetRow).code
        };
        let (top, bottom) = (16 * band as u16, 16 * band as u16 + 16);
        for rect in [EMPTY, [0, top, 160, bottom], [159, bottom - 1, 160, bottom], [0, top, 1, top + 1]] {
            assert_eq!(code(rect), 0, "{rect:?} in band {band}");
        }
        for rect in [
            [0, top, 160, bottom + 1],
            [0, top, 161, bottom],
            [0, bottom, 160, bottom + 1],
            [0, top, 160, top],
            [0, top, 0, bottom],
            [0, bottom, 160, top],
            [1, 0, 0, 0],
        ] {
            assert_eq!(code(rect), 2, "{rect:?} in band {band}");
        }
        if band > 0 {
            for rect in [[0, top - 1, 160, bottom], [0, top - 1, 160, top], [0, 0, 160, 16]] {
                assert_eq!(code(rect), 2, "{rect:?} in band {band}");
            }
        }
    }
}

/// The rectangle in hand stays one, anywhere on the screen.
#[test]
fn in_hand_knows_no_bands() {
    let mut screen = Screen::opened();
    screen.0.record[in_hand(2)..][..8].copy_from_slice(&[1, 0, 14, 0, 160, 0, 80, 0]);
    assert_eq!(screen.send(), Answer::done([1, 14, 1, 160]));
    assert_eq!(screen.in_hand(), [1, 15, 160, 80]);
    assert_eq!(screen.lines(), 65 + 80);
}
