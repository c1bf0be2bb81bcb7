//! Cues on their way to four panels, each polled at its own pace: panel k gets a send in every turn that k + 1 divides.

mod common;

use caption::{DrawMode, Place, Refusal, Screen, Sent, Setup};
use common::{Buffers, Kind, NUMBERS, ascii16, fonts, panels, unaccounted};

type Cue = [&'static [u8]; 2];

const FIRST: Cue = [b"I was in the hall,", b"not on the stair."];
const SECOND: Cue = [b"The door was open", b"when I came down."];

/// Every choice of direct and driven panels.
fn choices() -> impl Iterator<Item = [Kind; 4]> {
    let kind = |choice: u8, number| if choice >> number & 1 == 0 { Kind::Direct } else { Kind::Driven };
    (0..16).map(move |choice| NUMBERS.map(|number| kind(choice, number)))
}

/// Shows a cue, and looks after each of its calls.
fn show<P: Place>(screen: &mut Screen<P>, cue: Cue, mut look: impl FnMut(&Screen<P>)) -> Result<(), Refusal> {
    screen.cls()?;
    look(screen);
    screen.print(cue[0])?;
    look(screen);
    screen.newline()?;
    look(screen);
    screen.print(cue[1])?;
    look(screen);
    screen.flush(&fonts(&ascii16()))?;
    look(screen);
    Ok(())
}

/// The panels that get a send in this turn.
fn polled(turn: u32) -> impl Iterator<Item = u8> {
    NUMBERS.into_iter().filter(move |number| (turn + 1) % (u32::from(*number) + 1) == 0)
}

/// The picture of a cue, from the stand-in's bytes.
fn picture(cue: Cue) -> Vec<u8> {
    let (glyphs, mut bytes) = (ascii16(), vec![0; 1_600]);
    for (row, text) in cue.iter().enumerate() {
        for (column, character) in text.iter().enumerate() {
            for y in 0..16 {
                bytes[(16 * row + y) * 20 + column] = glyphs[16 * usize::from(*character) + y];
            }
        }
    }
    bytes
}

/// A new screen owes all 80 lines, from the top down.
fn level_after_80_sends<P: Place>(screen: &mut Screen<P>) {
    show(screen, FIRST, |_| ()).unwrap();
    assert!(screen.screen().bytes() == picture(FIRST));
    for turn in 0..4 * 81 {
        for number in polled(turn) {
            let sent_before = turn / (u32::from(number) + 1);
            assert_eq!(screen.lines_left(number), Ok(80_u32.saturating_sub(sent_before)));
            let y = sent_before as u16;
            let expected = if y < 80 { Sent::Line { y, left: 0, right: 160 } } else { Sent::Idle };
            assert_eq!(screen.send(number), Ok(expected), "panel {number}");
            assert_eq!(screen.lines_sent(number), Ok((sent_before + 1).min(80)));
            assert!(y < 79 || screen.panel(number) == Ok(screen.screen()), "panel {number} after its sends");
        }
    }
    assert_eq!(NUMBERS.map(|number| screen.lines_sent(number)), [Ok(80); 4]);
}

#[test]
fn each_panel_is_level_after_its_sends() {
    for kinds in choices() {
        level_after_80_sends(&mut Screen::open_with(&Setup::new(), panels(kinds)).unwrap());
        level_after_80_sends(&mut Buffers::new().open(&Setup::new(), kinds).unwrap());
    }
}

/// The turn before which the second cue is shown, and how many follow: 95 sends to the slowest panel, and one more.
const SECOND_CUE: u32 = 37;
const TURNS: u32 = SECOND_CUE + 4 * 96;

/// Both cues; looks after every call, with the answer of a send.
fn two_cues<P: Place>(screen: &mut Screen<P>, mut look: impl FnMut(&Screen<P>, Option<(u8, Sent)>)) {
    show(screen, FIRST, |screen| look(screen, None)).unwrap();
    for turn in 0..TURNS {
        if turn == SECOND_CUE {
            assert_eq!(NUMBERS.map(|number| screen.in_hand(number).unwrap().lines()), [11, 14, 4, 7]);
            show(screen, SECOND, |screen| look(screen, None)).unwrap();
        }
        for number in polled(turn) {
            let sent = screen.send(number).unwrap();
            look(screen, Some((number, sent)));
        }
    }
}

fn every_difference_is_accounted<P: Place>(screen: &mut Screen<P>) {
    let mut lines = [0; 4];
    two_cues(screen, |screen, sent| {
        if let Some((number, Sent::Line { .. })) = sent {
            lines[usize::from(number)] += 1;
        }
        for number in NUMBERS {
            assert_eq!(unaccounted(screen, number), None, "panel {number}");
            assert!(screen.lines_left(number).unwrap() <= 95);
            assert_eq!(screen.lines_sent(number), Ok(lines[usize::from(number)]));
        }
    });
    assert!(screen.screen().bytes() == picture(SECOND));
    for number in NUMBERS {
        assert_eq!(screen.panel(number), Ok(screen.screen()));
        assert_eq!(screen.send(number), Ok(Sent::Idle));
    }
}

#[test]
fn a_second_cue_leaves_no_difference_unaccounted() {
    for kinds in choices() {
        every_difference_is_accounted(&mut Screen::open_with(&Setup::new(), panels(kinds)).unwrap());
        every_difference_is_accounted(&mut Buffers::new().open(&Setup::new(), kinds).unwrap());
    }
}

/// All that shows after a call: the answer of a send, the record, the panels.
type Moment = (Option<(u8, Sent)>, Vec<u8>, [Vec<u8>; 4]);

fn moments<P: Place>(screen: &mut Screen<P>) -> Vec<Moment> {
    let mut moments = Vec::new();
    two_cues(screen, |screen, sent| {
        let panels = NUMBERS.map(|number| screen.panel(number).unwrap().bytes().to_vec());
        moments.push((sent, screen.record().to_vec(), panels));
    });
    moments
}

#[test]
fn driven_panels_show_what_direct_ones_do_at_every_moment() {
    let direct = moments(&mut Screen::open(&Setup::new()).unwrap());
    let in_buffers = moments(&mut Buffers::new().open(&Setup::new(), [Kind::Direct; 4]).unwrap());
    for kinds in choices() {
        let driven = moments(&mut Screen::open_with(&Setup::new(), panels(kinds)).unwrap());
        assert!(driven == direct, "{kinds:?}");
        let driven = moments(&mut Buffers::new().open(&Setup::new(), kinds).unwrap());
        assert!(driven == in_buffers, "{kinds:?}, in buffers");
    }
}

/// With marks that begin and end within bytes, on lines that are sent and on others.
#[test]
fn panels_of_one_screen_at_one_pace_show_the_same() {
    let kinds = [Kind::Direct, Kind::Driven, Kind::Driven, Kind::Direct];
    let mut screen = Screen::open_with(&Setup::new(), panels(kinds)).unwrap();
    for (turns, cue) in [(0, FIRST), (13, SECOND), (80, FIRST), (30, SECOND)] {
        show(&mut screen, cue, |_| ()).unwrap();
        for turn in 0..turns {
            screen.draw_line(turn, turn, turn + 9, turn * 3 % 80, DrawMode::Xor).unwrap();
            for _ in 0..3 {
                let answers = NUMBERS.map(|number| screen.send(number));
                assert_eq!(answers, [answers[0]; 4]);
                assert!(NUMBERS.iter().all(|number| screen.panel(*number) == screen.panel(0)));
            }
        }
    }
}
