//! The calls of a script on a screen.

use crate::script::Call;
use caption::{Fonts, LoadError, Rect, Refusal, Screen, Sent};

/// What a call answered, and why where it was not done.
pub struct Answer {
    pub text: String,
    pub reason: Option<String>,
}

impl Answer {
    pub fn done() -> Self {
        Self::of("(done)".to_string())
    }

    fn of(text: String) -> Self {
        Self { text, reason: None }
    }

    pub fn unreadable(line: usize) -> Self {
        Self { text: format!("(bad {line})"), reason: Some("this line is no form".to_string()) }
    }
}

impl From<Refusal> for Answer {
    fn from(refusal: Refusal) -> Self {
        Self { text: format!("(refused {})", refusal.number()), reason: Some(refusal.to_string()) }
    }
}

impl From<LoadError> for Answer {
    fn from(error: LoadError) -> Self {
        match error {
            LoadError::Fixed { address } => {
                Self { text: format!("(fixed {address})"), reason: Some(error.to_string()) }
            }
            LoadError::Refused(refusal) => refusal.into(),
        }
    }
}

impl<E: Into<Answer>> From<Result<(), E>> for Answer {
    fn from(done: Result<(), E>) -> Self {
        done.map_or_else(E::into, |()| Self::done())
    }
}

/// A send to a panel: what it answers, and whether a line was sent.
pub fn send(screen: &mut Screen, number: u8) -> (Answer, bool) {
    match screen.send(number) {
        Ok(Sent::Line { y, left, right }) => (Answer::of(format!("(sent {y} {left} {right})")), true),
        Ok(Sent::Idle) => (Answer::of("(idle)".to_string()), false),
        Err(refusal) => (refusal.into(), false),
    }
}

/// Any other call, and what it answers. Pairs have no font here, and their hexadecimal digits neither.
pub fn answer(screen: &mut Screen, ascii16: &[u8], call: &Call) -> Answer {
    let done = match *call {
        Call::Point { x, y, mode } => screen.draw_point(x, y, mode),
        Call::Line { x1, y1, x2, y2, mode } => screen.draw_line(x1, y1, x2, y2, mode),
        Call::Box { x1, y1, x2, y2, fill, mode } => screen.draw_box(x1, y1, x2, y2, fill, mode),
        Call::Circle { x, y, r, fill, mode } => screen.draw_circle(x, y, r, fill, mode),
        Call::Ellipse { x, y, rx, ry, fill, mode } => screen.draw_ellipse(x, y, rx, ry, fill, mode),
        Call::Paint { address, x, y, width, height, mode } => {
            screen.paint_bitmap_by_bytes(address, x.into(), y.into(), width, height, mode)
        }
        Call::Poke { address, byte } => screen.write_byte(address, byte),
        Call::Load { address, ref bytes } => return screen.load(address, bytes).into(),
        Call::Print { ref text } => screen.print(text.as_bytes()),
        Call::Newline => screen.newline(),
        Call::Cls => screen.cls(),
        Call::Flush => screen.flush(&Fonts { ascii16, ..Fonts::default() }),
        Call::Row { row } => screen.set_row(row),
        Call::Column { column } => screen.set_column(column),
        Call::Screen { mode } => screen.set_screen_mode(mode),
        Call::Style { mode } => screen.set_print_mode(mode),
        Call::Blink => screen.blink_cursor(),
        Call::ClearCursor => screen.clear_cursor(),
        Call::Dirty => return dirty(screen),
        Call::Reset => screen.reset(),
    };
    done.into()
}

fn dirty(screen: &mut Screen) -> Answer {
    match screen.take_dirty_area() {
        Ok(Rect { left, top, right, bottom }) => Answer::of(format!("(area {left} {top} {right} {bottom})")),
        Err(refusal) => refusal.into(),
    }
}
