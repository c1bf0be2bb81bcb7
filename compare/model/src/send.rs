//! Document 01's section "Sends", for the panel that a send names.

use crate::canvas::{get_bit, set_bit};
use crate::record::Record;
use crate::rect::Rect;
use calls::Refusal;
use calls::layout::PANELS;

/// Sent, line, left, right.
const IDLE: [u32; 4] = [0; 4];

impl Record {
    /// `panel` is the buffer of the panel that is named.
    pub fn send(&mut self, memory: &mut [u8], panel: &mut [u8], number: u8) -> Result<[u32; 4], Refusal> {
        let number = number as usize;
        if number >= PANELS {
            return Err(Refusal::Panel);
        }
        let line = self.take_line(number);
        if let Some(line) = &line {
            copy_line(self.screen(memory), panel, line);
        }
        Ok(sent(&line))
    }

    /// The half of a send that changes the record: the next line of the panel's is taken and counted. `None`
    /// for idle.
    pub fn take_line(&mut self, panel: usize) -> Option<Rect> {
        let pending = &mut self.panels[panel];
        pending.take();
        let rect = pending.in_hand?;
        let below = rect.top + 1;
        pending.lines_sent = pending.lines_sent.saturating_add(1);
        pending.in_hand = (below < rect.bottom).then_some(Rect { top: below, ..rect });
        Some(Rect { bottom: below, ..rect })
    }
}

/// What a send answers.
pub fn sent(line: &Option<Rect>) -> [u32; 4] {
    line.map_or(IDLE, |line| [1, line.top as u32, line.left as u32, line.right as u32])
}

/// The pixels of one line, from screen to panel.
fn copy_line(screen: &[u8], panel: &mut [u8], line: &Rect) {
    for x in line.left..line.right {
        set_bit(panel, x, line.top, get_bit(screen, x, line.top));
    }
}
