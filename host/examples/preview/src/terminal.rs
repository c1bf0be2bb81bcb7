//! Steps on a terminal: a character cell has two pixels, one above the other.

use crate::look::{HEIGHT, Pixel, View, WIDTH, Why};
use crate::run::{Seen, Step};
use std::io::{self, Write};

/// Columns between two pictures.
const GAP: usize = 3;
/// Columns of a screen and a panel side by side.
pub const TWO_PICTURES: usize = 2 * WIDTH + GAP;

/// How the terminal is.
pub struct Terminal {
    pub colour: bool,
    pub columns: usize,
}

impl Terminal {
    /// The call, its answer, and of each panel what is left.
    pub fn line(&self, out: &mut impl Write, number: usize, step: &Step, panels: &[usize]) -> io::Result<()> {
        write!(out, "{number:4}  {:<32}  {:<18}", printable(&step.call), step.answer.text)?;
        for panel in panels {
            let seen = &step.panels[*panel];
            write!(
                out,
                "  panel {panel}: {} left, {} sent, {} differ",
                seen.lines_left, seen.lines_sent, seen.pixels_differing
            )?;
        }
        writeln!(out)?;
        step.answer.reason.iter().try_for_each(|reason| writeln!(out, "      {reason}"))
    }

    /// Screen and panels side by side, as many as there is room for, then the rectangles in words. Where there is room for
    /// none, the words alone.
    pub fn pictures(&self, out: &mut impl Write, step: &Step, panels: &[usize]) -> io::Result<()> {
        let shown = if self.columns < WIDTH { &[][..] } else { panels };
        let views: Vec<View> = shown.iter().flat_map(|panel| self.views(*panel)).collect();
        for row in views.chunks(self.in_a_row()) {
            self.titles(out, row)?;
            for y in (0..HEIGHT).step_by(2) {
                for (place, view) in row.iter().enumerate() {
                    if place > 0 {
                        write!(out, "{:GAP$}", "")?;
                    }
                    self.cells(out, step, *view, y)?;
                }
                writeln!(out)?;
            }
        }
        panels.iter().try_for_each(|panel| rectangles(out, *panel, &step.panels[*panel]))
    }

    /// Where there is no colour, what differs has a picture of its own.
    fn views(&self, panel: usize) -> Vec<View> {
        let mut views = vec![View::Screen { panel }, View::Panel { panel }];
        if !self.colour {
            views.push(View::Difference { panel });
        }
        views
    }

    fn in_a_row(&self) -> usize {
        let fit = (self.columns + GAP) / (WIDTH + GAP);
        if self.colour { fit.clamp(1, 2) } else { fit.clamp(1, 3) }
    }

    fn titles(&self, out: &mut impl Write, views: &[View]) -> io::Result<()> {
        let titles: Vec<String> = views.iter().map(|view| format!("{:<WIDTH$}", view.title())).collect();
        writeln!(out, "{}", titles.join(&" ".repeat(GAP)).trim_end())
    }

    /// Two lines of a picture.
    fn cells(&self, out: &mut impl Write, step: &Step, view: View, y: usize) -> io::Result<()> {
        let mut last = None;
        for x in 0..WIDTH {
            let two = [view.pixel(step, x, y), view.pixel(step, x, y + 1)];
            if self.colour {
                if last != Some(two) {
                    write!(out, "\x1b[38;5;{};48;5;{}m", colour(two[0]), colour(two[1]))?;
                    last = Some(two);
                }
                out.write_all("▀".as_bytes())?;
            } else {
                out.write_all(block(two.map(|pixel| pixel.set)).as_bytes())?;
            }
        }
        if self.colour { out.write_all(b"\x1b[0m") } else { Ok(()) }
    }

    /// What the colours mean.
    pub fn legend(&self, out: &mut impl Write) -> io::Result<()> {
        if !self.colour {
            return Ok(());
        }
        let kinds = [
            (Why::Differs, "differs"),
            (Why::InHand, "in hand"),
            (Why::Owed { odd: false }, "owed"),
            (Why::Plain, "neither"),
        ];
        for (why, name) in kinds {
            let [set, clear] = [true, false].map(|set| colour(Pixel { set, why }));
            write!(out, "\x1b[38;5;{set};48;5;{clear}m▀▀\x1b[0m {name}   ")?;
        }
        writeln!(out, "(above: set, below: clear)")
    }
}

/// Of the 256 colours of terminals.
fn colour(pixel: Pixel) -> u8 {
    match (pixel.why, pixel.set) {
        (Why::Plain, true) => 255,
        (Why::Plain, false) => 235,
        (Why::Owed { .. }, true) => 153,
        (Why::Owed { odd: false }, false) => 18,
        (Why::Owed { odd: true }, false) => 19,
        (Why::InHand, true) => 222,
        (Why::InHand, false) => 58,
        (Why::Differs, true) => 196,
        (Why::Differs, false) => 88,
    }
}

fn block(two: [bool; 2]) -> &'static str {
    match two {
        [true, true] => "█",
        [true, false] => "▀",
        [false, true] => "▄",
        [false, false] => " ",
    }
}

/// The rectangles in words, with the steps that they are owed for.
fn rectangles(out: &mut impl Write, panel: usize, seen: &Seen) -> io::Result<()> {
    let owed = seen.owed.iter().zip(&seen.owed_for).enumerate();
    let owed = owed.map(|(band, (rect, steps))| (format!("owed in row {band}"), rect, steps));
    for (name, rect, for_steps) in [("in hand".to_string(), &seen.in_hand, &seen.in_hand_for)].into_iter().chain(owed) {
        if !rect.is_empty() {
            let [bottom, right] = [rect.bottom - 1, rect.right - 1];
            write!(out, "panel {panel}, {name}: lines {} to {bottom}, columns {} to {right}", rect.top, rect.left)?;
            writeln!(out, ", marked by {}", steps(for_steps))?;
        }
    }
    Ok(())
}

/// A script's line may hold what a terminal would take for a command.
fn printable(line: &str) -> String {
    line.chars().map(|character| if character.is_control() { '\u{fffd}' } else { character }).collect()
}

fn steps(steps: &[usize]) -> String {
    let numbers: Vec<String> = steps.iter().map(usize::to_string).collect();
    format!("{} {}", if steps.len() == 1 { "step" } else { "steps" }, numbers.join(", "))
}
