//! Document 01's section "The script program": what `panelrun` prints for a script.

mod read;

use crate::answer;
use crate::canvas::get_bit;
use crate::record::Record;
use calls::layout::{HEIGHT, WIDTH};
use calls::{Buffers, Call};

const LONGEST: usize = 4_096;
const OPEN: Call = Call::Open { graphics_base: 4_096, text_base: 8_192, version: 1, keys: [0; 8], edge: 0 };

/// The panel that the program sends to, and whose pixels and lines it counts.
pub const SENT_TO: u8 = 0;

/// All that the program prints for this standard input.
pub fn run_script(script: &[u8]) -> Vec<u8> {
    if script.len() > LONGEST {
        return b"(long)\n".to_vec();
    }
    let mut screen = Buffers::zero();
    answer(&OPEN, screen.lend(&OPEN));
    let mut printed = String::new();
    for (before, line) in read::lines(script).into_iter().enumerate() {
        printed += &match read::form(line) {
            Some(call) => told(&call, &mut screen),
            None => format!("(bad {})\n", before + 1),
        };
    }
    printed += &end(&mut screen);
    printed.into_bytes()
}

/// Make the call and say what it answers.
fn told(call: &Call, screen: &mut Buffers) -> String {
    let answer = answer(call, screen.lend(call));
    assert!(answer.accepted(), "{call:?} is refused");
    match (call, answer.numbers) {
        (Call::Send { .. }, [0, ..]) => "(idle)\n".into(),
        (Call::Send { .. }, [_, line, left, right]) => format!("(sent {line} {left} {right})\n"),
        _ => "(done)\n".into(),
    }
}

/// Differing pixels, then L.
fn end(screen: &mut Buffers) -> String {
    let record = Record::read(&screen.record).expect("calls leave a record that STATE lets pass");
    let lines = record.panels[SENT_TO as usize].lines();
    let shown = record.screen(&mut screen.memory);
    let differing = differing(shown, &screen.panels[SENT_TO as usize]);
    format!("(end {differing} {lines})\n")
}

fn differing(screen: &[u8], panel: &[u8]) -> usize {
    let pixels = (0..HEIGHT).flat_map(|y| (0..WIDTH).map(move |x| (x, y)));
    pixels.filter(|(x, y)| get_bit(screen, *x, *y) != get_bit(panel, *x, *y)).count()
}
