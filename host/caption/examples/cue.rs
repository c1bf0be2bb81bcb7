//! A host in its shortest form: a cue is printed, painted and sent. `host/cue.c` does the same in C.

use caption::{Fonts, Screen, Sent, Setup};

fn main() -> Result<(), caption::Refusal> {
    let font = [0x7e; 2_048]; // the host's own, 16 bytes for each character

    let mut screen = Screen::open(&Setup::new())?;
    screen.print(b"I was in the hall,")?;
    screen.newline()?;
    screen.print(b"not on the stair.")?;
    screen.flush(&Fonts { ascii16: &font, ..Fonts::default() })?;
    while let Sent::Line { y, left, right } = screen.send(0)? {
        show(y, left, right, screen.panel(0)?.line(y));
    }
    Ok(())
}

/// What a host does to hand a line to its glass.
fn show(y: u16, left: u16, right: u16, line: &[u8]) {
    let bytes: String = line.iter().map(|byte| format!("{byte:02x}")).collect();
    println!("{y} {left} {right} {bytes}");
}
