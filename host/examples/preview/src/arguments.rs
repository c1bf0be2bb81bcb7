//! What the program is told.

use std::path::PathBuf;

pub const HELP: &str = "\
usage: preview [SCRIPT] [OPTION..]

Runs a script on the caption core, a call at a time, and shows screen and panel side by side: which
pixels differ, what each text row owes the panel, what is in hand, and which step's mark it is for.
A panel may differ only where lines are owed or in hand; sends work these off.

  SCRIPT          a file of forms, a form a line, up to 4,096 bytes; - is the standard input.
                  Without it a built-in cue is run: an old one is on panel 0, and a new one comes.

What is shown:
  --panel K       panel K, 0 to 3 (default 0); may be given again
  --panel all     all four
  --driven K      drive panel K through a glass controller; may be given again. It looks the same
  --step N        step N alone; the open is step 0
  --every         the picture of every step; else, of several sends one after another, the last
  --pause         wait for the Enter key after each picture
  --colour WHEN   always, never, or auto (default): where the output is a terminal that has it and
                  NO_COLOR is not set. Without colour a third picture has the pixels that differ
  --columns N     how wide the terminal is (default: as it says, else 323). Screen and panel stand
                  side by side from 323 columns on, below each other from 160 on; with fewer, words
                  alone

Files, instead of what is shown:
  --html FILE     one page with all steps on a slider; it needs no server and nothing from outside
  --png FOLDER    step-NNN-panel-K.png: screen and panel side by side, in colour
  --pbm FOLDER    step-NNN-screen.pbm and step-NNN-panel-K.pbm

  --help          print this

Forms, as docs/SCRIPT.md has them:
  (point (X Y) MODE)  (line (X1 Y1) (X2 Y2) MODE)  (poke ADDRESS BYTE)  (send)
and further ones:
  (box (X1 Y1) (X2 Y2) FILL MODE)  (circle (X Y) R FILL MODE)  (ellipse (X Y) (RX RY) FILL MODE)
  (paint ADDRESS (X Y) (WIDTH HEIGHT) PAINT)  (load ADDRESS BYTE BYTE ..)
  (print \"TEXT\")  (newline)  (cls)  (flush)  (row N)  (column N)  (blink)  (clear-cursor)
  (screen text)  (screen graph)  (style normal)  (style inverse)  (style flash)
  (send K)  (send K N), up to N lines to panel K  (dirty)  (reset)
MODE is clear, or, xor or unknown; PAINT copy, or, not, and or xor; FILL 0 or 1. A flush has a font
of ASCII's characters alone: other text is refused. A line that is no form answers (bad N).

Exit status: 0; 1 where a line of the script is no form, or the output can't be written; 2 where
an argument is wrong or the script can't be read.
";

#[derive(Debug, PartialEq, Eq)]
pub struct Arguments {
    pub script: Option<String>,
    /// In the order of their numbers.
    pub panels: Vec<usize>,
    pub driven: [bool; 4],
    pub step: Option<usize>,
    pub every: bool,
    pub pause: bool,
    pub colour: Colour,
    pub columns: Option<usize>,
    pub html: Option<PathBuf>,
    pub png: Option<PathBuf>,
    pub pbm: Option<PathBuf>,
    pub help: bool,
}

#[derive(Debug, Clone, Copy, PartialEq, Eq)]
pub enum Colour {
    Auto,
    Always,
    Never,
}

/// The arguments behind the program's name, or what is wrong with them.
pub fn read(words: impl IntoIterator<Item = String>) -> Result<Arguments, String> {
    let mut arguments = Arguments {
        script: None,
        panels: vec![],
        driven: [false; 4],
        step: None,
        every: false,
        pause: false,
        colour: Colour::Auto,
        columns: None,
        html: None,
        png: None,
        pbm: None,
        help: false,
    };
    let mut words = words.into_iter();
    while let Some(word) = words.next() {
        match word.as_str() {
            "--help" | "-h" => arguments.help = true,
            "--every" => arguments.every = true,
            "--pause" => arguments.pause = true,
            option if option.starts_with("--") => with_value(&mut arguments, option, words.next())?,
            option if option.starts_with('-') && option != "-" => {
                return Err(format!("there is no option {option}"));
            }
            _ => set(&mut arguments.script, "SCRIPT", word)?,
        }
    }
    arguments.panels.sort_unstable();
    arguments.panels.dedup();
    if arguments.panels.is_empty() {
        arguments.panels.push(0);
    }
    if arguments.pause && arguments.script.as_deref() == Some("-") {
        return Err("--pause waits for the standard input, which - takes for the script".to_string());
    }
    Ok(arguments)
}

fn with_value(arguments: &mut Arguments, option: &str, value: Option<String>) -> Result<(), String> {
    if !["--panel", "--driven", "--step", "--colour", "--columns", "--html", "--png", "--pbm"].contains(&option) {
        return Err(format!("there is no option {option}"));
    }
    let value = value.ok_or_else(|| format!("{option} needs a value"))?;
    match option {
        "--panel" if value == "all" => arguments.panels.extend(0..4),
        "--panel" => arguments.panels.push(panel(option, &value)?),
        "--driven" => arguments.driven[panel(option, &value)?] = true,
        "--step" => set(&mut arguments.step, option, number(option, &value)?)?,
        "--columns" => set(&mut arguments.columns, option, number(option, &value)?)?,
        "--html" => set(&mut arguments.html, option, value.into())?,
        "--png" => set(&mut arguments.png, option, value.into())?,
        "--pbm" => set(&mut arguments.pbm, option, value.into())?,
        _ => arguments.colour = colour(&value)?,
    }
    Ok(())
}

/// Once only.
fn set<T>(place: &mut Option<T>, name: &str, value: T) -> Result<(), String> {
    match place.replace(value) {
        None => Ok(()),
        Some(_) => Err(format!("{name} is given twice")),
    }
}

fn panel(option: &str, value: &str) -> Result<usize, String> {
    let number = value.parse().ok().filter(|number| *number < 4);
    number.ok_or_else(|| format!("{option} {value}: a panel's number is 0 to 3"))
}

fn number(option: &str, value: &str) -> Result<usize, String> {
    value.parse().map_err(|_| format!("{option} {value}: it takes a number"))
}

fn colour(value: &str) -> Result<Colour, String> {
    match value {
        "auto" => Ok(Colour::Auto),
        "always" => Ok(Colour::Always),
        "never" => Ok(Colour::Never),
        _ => Err(format!("--colour {value}: it takes always, never or auto")),
    }
}
