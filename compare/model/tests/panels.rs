//! Change request 1 by its own words: up to four panels on one core.

use calls::layout::*;
use calls::{Answer, Buffers, Call, Lent};

const OPEN: Call = Call::Open { graphics_base: 4096, text_base: 8192, version: 1, keys: [0; 8], edge: 0 };
const POINT: Call = Call::DrawPoint { x: 3, y: 2, mode: 1 };

/// What is owed, band by band.
type Owed = [[u16; 4]; BANDS];

const WHOLE: Owed = [[0, 0, 160, 16], [0, 16, 160, 32], [0, 32, 160, 48], [0, 48, 160, 64], [0, 64, 160, 80]];
const NOTHING: Owed = [[0; 4]; BANDS];

/// What is kept for one panel.
#[derive(Debug, PartialEq, Eq)]
struct Kept {
    owed: Owed,
    in_hand: [u16; 4],
    sent: u32,
}

struct Screen(Buffers);

impl Screen {
    fn opened() -> Self {
        let mut buffers = Buffers::zero();
        buffers.record.fill(0xff);
        let mut screen = Self(buffers);
        assert!(screen.call(OPEN).accepted());
        screen
    }

    fn call(&mut self, call: Call) -> Answer {
        model::answer(&call, self.0.lend(&call))
    }

    fn send(&mut self, number: u8) -> Answer {
        self.call(Call::Send { number })
    }

    fn kept(&self) -> [Kept; PANELS] {
        let record = &self.0.record;
        [0, 1, 2, 3].map(|panel| Kept {
            owed: [0, 1, 2, 3, 4].map(|band| four(record, owed(panel, band))),
            in_hand: four(record, in_hand(panel)),
            sent: double_word(record, lines_sent(panel)),
        })
    }
}

/// The whole screen from this band on.
fn from_band(first: usize) -> Owed {
    let mut owed = WHOLE;
    owed[..first].fill([0; 4]);
    owed
}

fn kept(owed: Owed, in_hand: [u16; 4], sent: u32) -> Kept {
    Kept { owed, in_hand, sent }
}

#[test]
fn open_owes_the_whole_screen_to_all() {
    assert_eq!(Screen::opened().kept(), [(); PANELS].map(|()| kept(WHOLE, [0; 4], 0)));
}

#[test]
fn a_send_touches_the_named_panel_alone() {
    for number in 0..PANELS {
        let mut screen = Screen::opened();
        screen.call(POINT);
        let before = screen.0.clone();
        for line in 0..3 {
            assert_eq!(screen.send(number as u8), Answer::done([1, line, 0, 160]));
        }
        assert_eq!(screen.kept()[number], kept(from_band(1), [0, 3, 160, 16], 3));
        let mut after = before;
        after.record[part(number)].copy_from_slice(&screen.0.record[part(number)]);
        after.panels[number][2 * LINE] = 0x10;
        assert!(screen.0 == after, "panel {number}");
    }
}

#[test]
fn a_mark_goes_to_all_and_leaves_what_is_in_hand() {
    let mut screen = Screen::opened();
    for (number, sends) in [(0, 80), (1, 1), (3, 79)] {
        (0..sends).for_each(|_| assert!(screen.send(number).accepted()));
    }
    screen.call(POINT);
    let point = |mut owed: Owed| {
        owed[0] = [3, 2, 4, 3];
        owed
    };
    assert_eq!(
        screen.kept(),
        [
            kept(point(NOTHING), [0; 4], 80),
            kept(point(WHOLE), [0, 1, 160, 16], 1),
            kept(WHOLE, [0; 4], 0),
            kept(point(NOTHING), [0, 79, 160, 80], 79)
        ]
    );
}

#[test]
fn reset_owes_all_and_keeps_what_is_in_hand_and_sent() {
    let mut screen = Screen::opened();
    for (number, sends) in [(1, 80), (2, 5)] {
        (0..sends).for_each(|_| assert!(screen.send(number).accepted()));
    }
    screen.call(Call::Reset);
    assert_eq!(
        screen.kept(),
        [
            kept(WHOLE, [0; 4], 0),
            kept(WHOLE, [0; 4], 80),
            kept(WHOLE, [0, 5, 160, 16], 5),
            kept(WHOLE, [0; 4], 0)
        ]
    );
}

#[test]
fn each_panel_is_idle_by_itself() {
    let mut screen = Screen::opened();
    for _ in 0..80 {
        assert_eq!(screen.send(2).numbers[0], 1);
    }
    assert_eq!(screen.send(2), Answer::done([0; 4]));
    assert_eq!(screen.send(1), Answer::done([1, 0, 0, 160]));
    assert_eq!(screen.send(2), Answer::done([0; 4]));
}

/// LENT, then STATE, then PANEL.
#[test]
fn refusals_in_their_order() {
    let send = |screen: &mut Screen, record_len: usize, panel_len: usize, number: u8| {
        let Buffers { record, memory, panels } = &mut screen.0;
        record.resize(record_len, 0);
        panels[0].resize(panel_len, 0);
        let lent = Lent { record, memory, panel: &mut panels[0] };
        model::answer(&Call::Send { number }, lent).code
    };
    for number in [0, 3, 4, 5, 255] {
        let last = if number > 3 { 9 } else { 0 };
        assert_eq!(send(&mut Screen::opened(), RECORD, PANEL, number), last);
        for record_len in [0, 202, 231, 254, 306, 357, 358, 360] {
            assert_eq!(send(&mut Screen::opened(), record_len, PANEL, number), 1);
        }
        for panel_len in [0, 1_599, 1_601] {
            assert_eq!(send(&mut Screen::opened(), RECORD, panel_len, number), 1);
        }
        for panel in 0..PANELS {
            for place in [owed(panel, 0), owed(panel, 4), in_hand(panel)] {
                let mut screen = Screen::opened();
                screen.0.record[place..][..8].copy_from_slice(&[0, 0, 0, 0, 161, 0, 80, 0]);
                assert_eq!(send(&mut screen, RECORD, PANEL, number), 2);
                assert_eq!(send(&mut screen, RECORD, 0, number), 1);
            }
        }
    }
}

#[test]
fn a_refused_send_leaves_all() {
    let mut screen = Screen::opened();
    screen.call(POINT);
    let before = screen.0.clone();
    for number in 4..=255 {
        assert_eq!(screen.send(number), Answer { code: 9, numbers: [0; 4] });
        assert!(screen.0 == before, "number {number}");
    }
}
