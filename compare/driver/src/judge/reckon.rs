//! Owed, in hand and lines sent of each panel, reckoned from the list of accepted calls alone, never
//! read from a record, and the edge flag with them: a second reading of document 01's sections "Marks" and
//! "Sends" and of the change requests 1, 5 and 6, apart from the model.

use super::Difference;
use super::area::{Area, LAST_X, LAST_Y, Span, byte_span, span};
use super::panel::{Panel, by_band};
use calls::Call;
use calls::layout::*;

/// With one band for the whole screen it reckons as before change request 6.
#[derive(Debug)]
pub struct Reckoner<const N: usize = BANDS> {
    panels: [Panel<N>; PANELS],
    edge: u8,
}

const UNKNOWN: u8 = 3;
const GRAPH: u8 = 1;
const CLAMP: u8 = 0;

impl<const N: usize> Default for Reckoner<N> {
    fn default() -> Self {
        Self { panels: [Panel::default(); PANELS], edge: CLAMP }
    }
}

impl Reckoner<BANDS> {
    /// For a list that starts from a valid record: what that says.
    pub fn of_record(record: &[u8]) -> Self {
        Self { panels: [0, 1, 2, 3].map(|panel| Panel::of_record(record, panel)), edge: record[EDGE] }
    }

    pub fn compare(&self, record: &[u8]) -> Result<(), Difference> {
        for (number, panel) in self.panels.iter().enumerate() {
            let (due, found) = (panel.bytes(), &record[part(number)]);
            if due != found {
                return Err(Difference::new(format!(
                    "owed, in hand and lines sent of panel {number}: reckoned {due:?}, in the record {found:?}"
                )));
            }
        }
        if self.edge != record[EDGE] {
            let (due, found) = (self.edge, record[EDGE]);
            return Err(Difference::new(format!("edge flag: reckoned {due}, in the record {found}")));
        }
        Ok(())
    }
}

impl<const N: usize> Reckoner<N> {
    pub fn empty_owed(&mut self) {
        for panel in &mut self.panels {
            panel.empty_owed();
        }
    }

    /// What the next send to the panel is due to answer: line, first and last pixel; `None` for idle.
    pub fn next_line(&self, panel: usize) -> Option<[u32; 3]> {
        let Area { across, down } = self.panels[panel].next()?;
        Some([down.first, across.first, across.last])
    }

    /// An accepted call, made with the record as it stood `before`; memory as it stands after.
    pub fn take(&mut self, call: &Call, before: &[u8], memory: &[u8]) {
        match *call {
            Call::Open { edge, .. } => {
                *self = Self { edge, ..Self::default() };
                self.whole();
            }
            Call::Reset | Call::Cls | Call::Flush { .. } | Call::SetScreenMode { .. } => self.whole(),
            Call::DrawPoint { x, y, .. } => self.add(byte_span(x, x), byte_span(y, y)),
            Call::DrawLine { x1, y1, x2, y2, .. } if y1 == y2 => {
                self.add_lines(byte_span(x1, x2), byte_span(y1, y1));
            }
            Call::DrawLine { mode: UNKNOWN, .. } => {}
            Call::DrawLine { x1, y1, x2, y2, .. } => self.add(byte_span(x1, x2), byte_span(y1, y2)),
            Call::DrawBox { x1, y1, x2, y2, .. } => {
                self.add_lines(byte_span(x1, x2), byte_span(y1, y2));
            }
            Call::DrawCircle { x, y, r, fill, mode } => self.ellipse((x, y), (r, r), fill, mode),
            Call::DrawEllipse { x, y, rx, ry, fill, mode } => self.ellipse((x, y), (rx, ry), fill, mode),
            Call::PaintBitmap { x, y, width, height, .. }
            | Call::PaintBitmapByBytes { x, y, width, height, .. } => self.bitmap(x, y, width, height),
            Call::Print { ref text } => {
                if before[SCREEN_MODE] == GRAPH && print_scrolls(before[ROW], before[COLUMN], text) {
                    self.whole();
                }
            }
            Call::Newline => {
                if before[SCREEN_MODE] == GRAPH && before[ROW] == 4 && before[COLUMN] > 0 {
                    self.whole();
                }
            }
            Call::BlinkCursor => self.cursor(before, memory),
            Call::ClearCursor => {
                if before[CURSOR] != 0 {
                    self.cursor(before, memory);
                }
            }
            Call::WriteByte { address, .. } => self.poke(before, address),
            Call::Send { number } => self.panels[number as usize].send(),
            Call::CheckPoint { .. }
            | Call::GetRow
            | Call::GetColumn
            | Call::SetRow { .. }
            | Call::SetColumn { .. }
            | Call::SetPrintMode { .. }
            | Call::TakeDirtyArea => {}
        }
    }

    fn whole(&mut self) {
        self.mark(Area::whole());
    }

    /// A mark goes to every panel.
    fn mark(&mut self, area: Area) {
        let parts = by_band(area);
        self.panels.iter_mut().for_each(|panel| panel.owe(&parts));
    }

    fn add(&mut self, across: Span, down: Span) {
        if let (Some(across), Some(down)) = (across.cut(LAST_X), down.cut(LAST_Y)) {
            self.mark(Area { across, down });
        }
    }

    /// What horizontal lines make: those that are clamped lie at the edge where they would lie beyond it.
    fn add_lines(&mut self, across: Span, down: Span) {
        if self.edge == CLAMP {
            self.add(across.lowered(LAST_X), down.lowered(LAST_Y));
        } else {
            self.add(across, down);
        }
    }

    fn ellipse(&mut self, (x, y): (u8, u8), (rx, ry): (u8, u8), fill: u8, mode: u8) {
        let (x, y, rx, ry) = (x as u32, y as u32, rx as u32, ry as u32);
        if rx == 0 && ry == 0 {
            self.add(span(x, x), span(y, y));
        } else if fill == 0 && mode == UNKNOWN {
        } else if rx > x || ry > y || x + rx > 255 || y + ry > 255 {
            self.whole();
        } else {
            let (across, down) = (span(x - rx, (x + rx).max(LAST_X)), span(y - ry, (y + ry).max(LAST_Y)));
            if fill == 1 { self.add_lines(across, down) } else { self.add(across, down) }
        }
    }

    fn bitmap(&mut self, x: i32, y: i32, width: u8, height: u8) {
        let (right, bottom) = (x as i64 + width as i64 - 1, y as i64 + height as i64 - 1);
        let shown = width > 0 && height > 0 && right >= 0 && bottom >= 0;
        if shown && x <= LAST_X as i32 && y <= LAST_Y as i32 {
            self.add(span(x.max(0) as u32, right as u32), span(y.max(0) as u32, bottom as u32));
        }
    }

    /// In Text one cell, or two for a full cursor: as it shows, or as the cell below asks for.
    fn cursor(&mut self, before: &[u8], memory: &[u8]) {
        if before[SCREEN_MODE] == GRAPH {
            return;
        }
        let (row, column) = (before[ROW] as u32, before[COLUMN] as u32);
        let cell = word(before, TEXT_BASE) as usize + (row * 20 + column) as usize;
        let full = if before[CURSOR] == 0 { memory[cell] >= 128 } else { before[CURSOR] == 2 };
        let width = if full { 16 } else { 8 };
        self.add(span(8 * column, 8 * column + width - 1), span(16 * row, 16 * row + 15));
    }

    fn poke(&mut self, before: &[u8], address: u16) {
        let key = address < 256 && before[KEYS + address as usize / 8] >> (address % 8) & 1 == 1;
        let place = address as u32 as i64 - word(before, GRAPHICS_BASE) as i64;
        if address < 0xe000 && !key && (0..SCREEN as i64).contains(&place) {
            let (x, y) = (place as u32 % 20 * 8, place as u32 / 20);
            self.add(span(x, x + 7), span(y, y));
        }
    }
}

/// Whether printing from this row and column moves past the last row.
fn print_scrolls(mut row: u8, mut column: u8, text: &[u8]) -> bool {
    let mut rest = text;
    while let Some(&byte) = rest.first() {
        if byte >= 128 && column == 19 {
            (row, column) = (row + 1, 0);
        }
        let taken = if byte >= 128 { rest.len().min(2) } else { 1 };
        rest = &rest[taken..];
        column += taken as u8;
        if column == 20 {
            (row, column) = (row + 1, 0);
        }
        if row == 5 {
            return true;
        }
    }
    false
}
