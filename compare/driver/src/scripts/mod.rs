//! The script program: random and damaged scripts, and whether a program prints for each what the
//! model says.

mod damage;
mod edges;
mod make;
mod program;
mod shrink;
mod tally;

pub use program::{Printed, Trial, run};
pub use shrink::shrink;

use crate::progress::Progress;
use crate::random::Random;
use make::LONGEST;
use model::run_script;
use tally::Tally;

/// Most pieces that a script comes in.
const MOST_PIECES: usize = 40;

pub struct Scripts {
    pub count: u64,
    pub seed: u64,
}

impl Scripts {
    /// Compare, and print what was compared; true if nothing differs.
    pub fn compare(&self, program: impl Fn(&Trial) -> Printed) -> bool {
        let mut tally = Tally::default();
        let mut progress = Progress::new(self.count, "scripts");
        for trial in self.trials() {
            let due = run_script(&trial.script);
            if program(&trial).as_ref() != Ok(&due) {
                progress.clear();
                show(&trial, program);
                println!("{tally}; 1 difference");
                return false;
            }
            tally.add(&trial, &due);
            progress.show(tally.scripts);
        }
        progress.clear();
        println!("{tally}; 0 differences");
        true
    }

    /// The first one that differs, shrunk.
    pub fn find(&self, program: impl Fn(&Trial) -> Printed) -> Option<Trial> {
        let differs = |trial: &Trial| program(trial) != Ok(run_script(&trial.script));
        self.trials().find(differs).map(|trial| shrink(&trial, differs))
    }

    /// The fixed scripts, then random ones.
    fn trials(&self) -> impl Iterator<Item = Trial> {
        let fixed = edges::edges().into_iter();
        let random = (0..).map(|number| script(&mut Random::new((self.seed << 32) + number)));
        let feeding = Random::new(self.seed);
        let trials = fixed.chain(random).scan(feeding, |feeding, script| Some(fed(feeding, script)));
        trials.take(self.count as usize)
    }
}

/// A random script: readable, damaged, or around the longest.
fn script(random: &mut Random) -> Vec<u8> {
    let mut script = match random.below(10) {
        0..9 => make::readable(random),
        _ => long(random),
    }
    .into_bytes();
    if random.below(10) < 7 {
        damage::damage(random, &mut script);
    }
    script
}

/// Mostly of just the longest length or a byte beside it, some without the last newline.
fn long(random: &mut Random) -> String {
    let lengths = [LONGEST - 1, LONGEST, LONGEST, LONGEST + 1, LONGEST + 1, LONGEST + 2, 2 * LONGEST, 70_000];
    let length = random.pick(&lengths);
    if random.one_in(2) {
        return make::exactly(random, length);
    }
    let mut script = make::exactly(random, length + 1);
    script.pop();
    script
}

/// One in eight scripts comes in pieces.
fn fed(random: &mut Random, script: Vec<u8>) -> Trial {
    let piece = random.pick(&[1, 1, 2, 3, 7, 16, 17, 100, 512, LONGEST - 1, LONGEST, LONGEST + 1]);
    let piece = piece.max(script.len() / MOST_PIECES);
    Trial { script, piece: random.one_in(8).then_some(piece) }
}

/// The shortest script that shows the difference, and the first line that differs.
fn show(trial: &Trial, program: impl Fn(&Trial) -> Printed) {
    let differs = |trial: &Trial| program(trial) != Ok(run_script(&trial.script));
    if !differs(trial) {
        println!("DIFFERENCE; a second run doesn't show it:\n{trial}");
        return;
    }
    eprintln!("a difference; looking for the shortest script that shows it ..");
    let trial = shrink(trial, differs);
    println!("DIFFERENCE; shortest script that shows it:\n{trial}");
    let due = run_script(&trial.script);
    match program(&trial) {
        Err(error) => println!("the program: {error}"),
        Ok(printed) => {
            let (due, printed) = (lines(&due), lines(&printed));
            let same = due.iter().zip(&printed).take_while(|(due, printed)| due == printed).count();
            let line = |lines: &[String]| lines.get(same).map_or("nothing".into(), |line| line.clone());
            println!("printed line {}: model {}, program {}", same + 1, line(&due), line(&printed));
        }
    }
}

/// The printed lines with their newlines, fit to be shown.
fn lines(printed: &[u8]) -> Vec<String> {
    printed.split_inclusive(|byte| *byte == b'\n').map(|line| line.escape_ascii().to_string()).collect()
}
