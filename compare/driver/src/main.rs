//! `driver run` compares, `driver device` the device calls alone; `driver scripts` compares a script program with
//! the model; `driver bands` says what is sent with one band and with five; `driver replay-make` writes a list
//! for the replay.

use driver::run::{FULL, Run};
use driver::scripts::{self, Scripts};
use driver::{bands, core_side, device, replay};
use std::fs;
use std::path::Path;
use std::process::ExitCode;

const USAGE: &str = "driver run [--calls N] [--seed S] [--no-core] [--no-exhaustive]
    compare reference, model and core, if it is linked, on at least N calls (default 10000000), and
    model and core on at least N device calls
driver device [--calls N] [--seed S] [--no-core]
    compare the device calls alone
driver scripts COUNT PROGRAM [--seed S]
    feed COUNT scripts to PROGRAM and hold what it prints to the model
driver bands
    print how many lines and bytes go to a panel in some cases, with one rectangle owed for the whole
    screen, as before change request 6, and with one for each of five bands
driver replay-make FOLDER
    write the replay's stdin and stdout into FOLDER
Seeds are 0 to 4294967295 (default 1). Exit status: 0 nothing differs, 1 something does, or 10000000
calls or more had fewer than 10000 flushes with a pair in the gap or, with the core, fewer than 100000
accepted calls of paint_bitmap_by_bytes or fewer than two fifths of the lists with edge flag 1, or as
many device calls met a cause of a refusal, or something else that is counted, fewer than 1000 times,
2 bad arguments.";

const BANDS: &str = "\
What goes to one panel, from a level one until it is idle: lines, and the bytes that hold their pixels.
one band    one rectangle is owed for the whole screen, as before change request 6
five bands  one for each row of text
";

fn main() -> ExitCode {
    let arguments: Vec<String> = std::env::args().skip(1).collect();
    match arguments.first().map(String::as_str) {
        Some("run") => run(&arguments[1..]),
        Some("device") => run_device(&arguments[1..]),
        Some("scripts") => compare_scripts(&arguments[1..]),
        Some("bands") if arguments.len() == 1 => {
            print!("{BANDS}\n{}", bands::table());
            ExitCode::SUCCESS
        }
        Some("--help" | "-h") => {
            println!("{USAGE}");
            ExitCode::SUCCESS
        }
        Some("replay-make") if arguments.len() == 2 => replay_make(Path::new(&arguments[1])),
        _ => usage(),
    }
}

/// A list's seed is made of the run's and 32 bits of its own.
fn seed_of(text: &str) -> Option<u64> {
    text.parse::<u32>().ok().map(u64::from)
}

/// Hold a script program against the model.
fn compare_scripts(arguments: &[String]) -> ExitCode {
    let (count, program, seed) = match arguments {
        [count, program] => (count, program, Some(1)),
        [count, program, flag, seed] if flag == "--seed" => (count, program, seed_of(seed)),
        _ => return usage(),
    };
    let (Ok(count), Some(seed)) = (count.parse(), seed) else { return usage() };
    println!("comparing {count} scripts of seed {seed}: {program}, model");
    let same = Scripts { count, seed }.compare(|trial| scripts::run(Path::new(program), trial));
    if same { ExitCode::SUCCESS } else { ExitCode::FAILURE }
}

/// Write the stored calls and the reference's answers as a program's `stdin` and `stdout`.
fn replay_make(folder: &Path) -> ExitCode {
    let replay = replay::make();
    let written = fs::create_dir_all(folder)
        .and_then(|()| fs::write(folder.join("stdin"), &replay.stdin))
        .and_then(|()| fs::write(folder.join("stdout"), &replay.stdout));
    match written {
        Ok(()) => ExitCode::SUCCESS,
        Err(error) => {
            eprintln!("{}: {error}", folder.display());
            ExitCode::FAILURE
        }
    }
}

fn usage() -> ExitCode {
    eprintln!("{USAGE}");
    ExitCode::from(2)
}

/// What runs are told.
struct Told {
    calls: u64,
    seed: u64,
    core: bool,
    exhaustive: bool,
}

impl Told {
    fn read(arguments: &[String]) -> Option<Self> {
        let mut told = Self { calls: FULL, seed: 1, core: true, exhaustive: true };
        let mut rest = arguments.iter();
        while let Some(argument) = rest.next() {
            match argument.as_str() {
                "--no-core" => told.core = false,
                "--no-exhaustive" => told.exhaustive = false,
                "--calls" => told.calls = rest.next()?.parse().ok()?,
                "--seed" => told.seed = seed_of(rest.next()?)?,
                _ => return None,
            }
        }
        Some(told)
    }

    fn device_run(&self) -> device::run::Run {
        let linked = core_side::linked_device().zip(core_side::linked()).filter(|_| self.core);
        let core = linked.map(|(device, screen)| device::judge::Core { device, screen });
        device::run::Run { calls: self.calls, seed: self.seed, core }
    }
}

fn run(arguments: &[String]) -> ExitCode {
    let Some(told) = Told::read(arguments) else { return usage() };
    let Told { calls, seed, exhaustive, .. } = told;
    let core = core_side::linked().filter(|_| told.core);
    let same = Run { calls, seed, core, exhaustive }.run() && told.device_run().run();
    if same { ExitCode::SUCCESS } else { ExitCode::FAILURE }
}

/// Register and driver calls alone.
fn run_device(arguments: &[String]) -> ExitCode {
    match Told::read(arguments).filter(|told| told.exhaustive) {
        None => usage(),
        Some(told) if told.device_run().run() => ExitCode::SUCCESS,
        Some(_) => ExitCode::FAILURE,
    }
}
