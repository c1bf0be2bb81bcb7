//! What was compared, and how a script is shown.

use super::program::Trial;
use std::fmt;

#[derive(Debug, Default)]
pub struct Tally {
    pub scripts: u64,
    in_pieces: u64,
    long: u64,
    /// Lines by what they print: done, sent, idle, bad.
    lines: [u64; 4],
}

const ANSWERS: [&str; 4] = ["done", "sent", "idle", "bad"];

impl Tally {
    /// Count a script for which this is printed.
    pub fn add(&mut self, trial: &Trial, printed: &[u8]) {
        self.scripts += 1;
        self.in_pieces += trial.piece.is_some() as u64;
        self.long += (printed == b"(long)\n") as u64;
        for line in printed.split(|byte| *byte == b'\n') {
            let answer =
                ANSWERS.iter().position(|answer| line[1.min(line.len())..].starts_with(answer.as_bytes()));
            if let Some(answer) = answer {
                self.lines[answer] += 1;
            }
        }
    }
}

impl fmt::Display for Tally {
    fn fmt(&self, f: &mut fmt::Formatter) -> fmt::Result {
        let [done, sent, idle, bad] = self.lines;
        write!(f, "lines: {done} done, {sent} sent, {idle} idle, {bad} bad\n{} scripts", self.scripts)?;
        write!(f, ", {} in pieces, {} too long", self.in_pieces, self.long)
    }
}

/// The lines with their newlines as `\n`; equal ones that follow each other only once.
impl fmt::Display for Trial {
    fn fmt(&self, f: &mut fmt::Formatter) -> fmt::Result {
        let lines: Vec<&[u8]> = self.script.split_inclusive(|byte| *byte == b'\n').collect();
        for same in lines.chunk_by(|one, other| one == other) {
            let times = if same.len() > 1 { format!("   {} times", same.len()) } else { String::new() };
            writeln!(f, "  {}{times}", same[0].escape_ascii())?;
        }
        write!(f, "{} bytes", self.script.len())?;
        match self.piece {
            None => write!(f, " at once"),
            Some(piece) => write!(f, " in pieces of {piece}"),
        }
    }
}
