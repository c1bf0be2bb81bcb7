//! Random readable scripts, also of exact lengths.

use crate::random::{Random, Windows};
use calls::Call;

pub const LONGEST: usize = 4_096;

const MODES: [&str; 4] = ["clear", "or", "xor", "unknown"];
const SEND: &str = "(send)\n";

/// The windows that the program opens with.
const WINDOWS: Windows = Windows { graphics_base: 4_096, text_base: 8_192 };

/// Some lines, mostly few, sometimes as many as fit; some start with enough sends to be idle.
pub fn readable(random: &mut Random) -> String {
    let mut script = if random.one_in(4) { SEND.repeat(70 + random.below(20)) } else { String::new() };
    let sends = random.below(8);
    let lines = match random.below(8) {
        0 => random.below(4),
        1..5 => random.below(12),
        5..7 => random.below(100),
        _ => LONGEST,
    };
    for _ in 0..lines {
        let line = line(random, sends);
        if script.len() + line.len() > LONGEST {
            break;
        }
        script += &line;
    }
    script
}

/// Readable lines of exactly so many bytes together, at least 11.
pub fn exactly(random: &mut Random, length: usize) -> String {
    let mut script = String::new();
    let sends = random.below(8);
    loop {
        let rest = length - script.len();
        let line = line(random, sends);
        if line.len() + SHORTEST_POKE <= rest {
            script += &line;
        } else if SEND.len() + SHORTEST_POKE <= rest {
            script += SEND;
        } else {
            return script + &poke_of(rest);
        }
    }
}

/// The length of `(poke 0 0)` with its newline.
const SHORTEST_POKE: usize = 11;

/// A poke of so many bytes with its newline, 11 to 17.
fn poke_of(length: usize) -> String {
    let digits = length - SHORTEST_POKE;
    let byte = &"255"[..1 + digits.min(2)];
    let address = &"40960"[..1 + digits.saturating_sub(2)];
    format!("(poke {address} {byte})\n")
}

/// A readable line; so many out of eight are sends.
fn line(random: &mut Random, sends: usize) -> String {
    if random.below(8) < sends {
        return SEND.into();
    }
    let name = random.pick(&["draw_point", "draw_line", "write_byte"]);
    let number = Call::number_of(name).expect("a call of this name");
    written(&random.call(number, WINDOWS))
}

/// The form of the call, with a newline.
fn written(call: &Call) -> String {
    let name = |mode: u8| MODES[mode as usize % 4];
    match *call {
        Call::DrawPoint { x, y, mode } => format!("(point ({x} {y}) {})\n", name(mode)),
        Call::DrawLine { x1, y1, x2, y2, mode } => {
            format!("(line ({x1} {y1}) ({x2} {y2}) {})\n", name(mode))
        }
        Call::WriteByte { address, byte } => format!("(poke {address} {byte})\n"),
        _ => unreachable!("no form for {call:?}"),
    }
}
