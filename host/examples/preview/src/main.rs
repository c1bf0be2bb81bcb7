//! Shows a script's calls on the caption core step by step: see `preview --help`.

mod arguments;
mod calls;
mod files;
mod font;
mod html;
mod look;
mod png;
mod run;
mod script;
mod terminal;

use arguments::{Arguments, Colour, HELP};
use run::{Run, Step};
use std::env;
use std::fs::{self, File};
use std::io::{self, BufWriter, ErrorKind, IsTerminal, Read, Write};
use std::path::Path;
use std::process::{Command, ExitCode};
use terminal::Terminal;

const CUE: &str = include_str!("../cue.script");
const MOST_BYTES: usize = 4_096;

/// What ends the program early: a message, and the exit status.
struct Failure(String, u8);

fn main() -> ExitCode {
    match preview() {
        Ok(status) => ExitCode::from(status),
        Err(Failure(message, status)) => {
            eprintln!("preview: {message}");
            if status == 2 {
                eprintln!("preview --help says what it takes");
            }
            ExitCode::from(status)
        }
    }
}

fn wrong(message: String) -> Failure {
    Failure(message, 2)
}

fn preview() -> Result<u8, Failure> {
    let words: Result<Vec<String>, _> = env::args_os().skip(1).map(|word| word.into_string()).collect();
    let words = words.map_err(|word| wrong(format!("{} is no text", word.to_string_lossy())))?;
    let arguments = arguments::read(words).map_err(wrong)?;
    if arguments.help {
        return finish(io::stdout().write_all(HELP.as_bytes()), 0);
    }
    let (name, script) = read_script(arguments.script.as_deref()).map_err(wrong)?;
    let run = run::run(&script, arguments.driven).map_err(wrong)?;
    let steps = chosen(&run.steps, &arguments).map_err(wrong)?;
    let shown = if arguments.html.is_none() && arguments.png.is_none() && arguments.pbm.is_none() {
        show(&run, &steps, &arguments)
    } else {
        write_files(&name, &run, &steps, &arguments).map_err(|message| Failure(message, 1))?;
        Ok(())
    };
    if !run.unreadable.is_empty() {
        let numbers: Vec<String> = run.unreadable.iter().map(usize::to_string).collect();
        eprintln!("preview: {name} has lines that are no form: {}", numbers.join(", "));
    }
    finish(shown, u8::from(!run.unreadable.is_empty()))
}

/// A reader that has seen enough, as `head`, is no fault.
fn finish(written: io::Result<()>, status: u8) -> Result<u8, Failure> {
    match written {
        Err(error) if error.kind() != ErrorKind::BrokenPipe => Err(Failure(format!("the output: {error}"), 1)),
        _ => Ok(status),
    }
}

/// What a script is called, and its text.
fn read_script(path: Option<&str>) -> Result<(String, String), String> {
    let (name, read) = match path {
        None => return Ok(("the built-in cue".to_string(), CUE.to_string())),
        Some("-") => ("the standard input".to_string(), read_some(io::stdin())),
        Some(path) => (path.to_string(), File::open(path).and_then(read_some)),
    };
    let bytes = read.map_err(|error| format!("{name}: {error}"))?;
    if bytes.len() > MOST_BYTES {
        return Err(format!("{name} has more than {MOST_BYTES} bytes"));
    }
    let text = String::from_utf8(bytes).map_err(|_| format!("{name} is no text"))?;
    Ok((name, text))
}

/// Up to one byte more than a script may have.
fn read_some(from: impl Read) -> io::Result<Vec<u8>> {
    let mut bytes = vec![];
    from.take(MOST_BYTES as u64 + 1).read_to_end(&mut bytes)?;
    Ok(bytes)
}

/// The steps whose pictures are wanted, with their numbers.
fn chosen<'a>(steps: &'a [Step], arguments: &Arguments) -> Result<Vec<(usize, &'a Step)>, String> {
    if let Some(number) = arguments.step {
        let last = steps.len() - 1;
        let step = steps.get(number).ok_or_else(|| format!("--step {number}: the last step is {last}"))?;
        return Ok(vec![(number, step)]);
    }
    let goes_on = |number: usize| {
        let next = steps.get(number + 1).and_then(|step| step.sent_to);
        next.is_some() && next == steps[number].sent_to
    };
    Ok(steps.iter().enumerate().filter(|(number, _)| arguments.every || !goes_on(*number)).collect())
}

fn show(run: &Run, steps: &[(usize, &Step)], arguments: &Arguments) -> io::Result<()> {
    let terminal = Terminal { colour: has_colour(arguments.colour), columns: columns(arguments.columns) };
    if terminal.columns < look::WIDTH {
        let [needed, there] = [look::WIDTH, terminal.columns];
        eprintln!(
            "preview: a picture takes {needed} columns, and there are {there}: none is shown. --html FILE makes a page"
        );
    }
    let mut out = BufWriter::new(io::stdout().lock());
    terminal.legend(&mut out)?;
    for (number, step) in run.steps.iter().enumerate() {
        let with_picture = steps.iter().any(|(shown, _)| *shown == number);
        if with_picture || arguments.step.is_none() {
            terminal.line(&mut out, number, step, &arguments.panels)?;
        }
        if with_picture {
            terminal.pictures(&mut out, step, &arguments.panels)?;
            out.flush()?;
        }
        if with_picture && arguments.pause && !wait()? {
            break;
        }
    }
    out.flush()
}

/// For the Enter key; false where the input has ended.
fn wait() -> io::Result<bool> {
    eprint!("Enter goes on, Ctrl-D ends: ");
    Ok(io::stdin().read_line(&mut String::new())? > 0)
}

fn has_colour(asked: Colour) -> bool {
    let set = |name| env::var_os(name).is_some_and(|value| !value.is_empty());
    match asked {
        Colour::Always => true,
        Colour::Never => false,
        Colour::Auto => {
            io::stdout().is_terminal() && !set("NO_COLOR") && env::var_os("TERM").is_some_and(|term| term != "dumb")
        }
    }
}

/// How wide the terminal is: as told, as it says, or wide enough for two pictures.
fn columns(told: Option<usize>) -> usize {
    told.or_else(|| io::stdout().is_terminal().then(terminal_columns).flatten()).unwrap_or(terminal::TWO_PICTURES)
}

fn terminal_columns() -> Option<usize> {
    let size = Command::new("stty").arg("size").stdin(File::open("/dev/tty").ok()?).output().ok()?;
    String::from_utf8(size.stdout).ok()?.split_whitespace().nth(1)?.parse().ok()
}

fn write_files(name: &str, run: &Run, steps: &[(usize, &Step)], arguments: &Arguments) -> Result<(), String> {
    let panels = &arguments.panels;
    if let Some(path) = &arguments.html {
        let page = html::page(name, &run.steps, panels[0]);
        let size = format!("{} steps, {} kB", run.steps.len(), page.len() / 1_000);
        said(path, fs::write(path, &page).map(|()| size))?;
    }
    let pictures = |count| format!("{count} pictures");
    if let Some(folder) = &arguments.png {
        said(folder, files::write_png(folder, steps, panels).map(pictures))?;
    }
    if let Some(folder) = &arguments.pbm {
        said(folder, files::write_pbm(folder, steps, panels).map(pictures))?;
    }
    Ok(())
}

/// What was written goes to standard error, as the output is in the file; a fault is told by the caller.
fn said(path: &Path, written: io::Result<String>) -> Result<(), String> {
    let what = written.map_err(|error| format!("{}: {error}", path.display()))?;
    eprintln!("{}: {what}", path.display());
    Ok(())
}
