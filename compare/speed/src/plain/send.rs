//! A send, and its copy of a line alone.

use super::record::{store_rect, valid};
use calls::layout::*;

/// All tests, the next line of the named panel taken, copied and counted; code, sent, line, left,
/// right.
pub fn send(record: &mut [u8], memory: &[u8], shown: &mut [u8], number: u8) -> [u32; 5] {
    if record.len() != RECORD || memory.len() != MEMORY || shown.len() != PANEL {
        return [1, 0, 0, 0, 0];
    }
    if !valid(record) {
        return [2, 0, 0, 0, 0];
    }
    let panel = number as usize;
    if panel >= PANELS {
        return [9, 0, 0, 0, 0];
    }
    let mut rect = four(record, in_hand(panel));
    if rect == [0; 4] {
        let Some(place) = next_owed(record, panel) else { return [0; 5] };
        rect = four(record, place);
        store_rect(record, place, [0; 4]);
    }
    let [left, top, right, bottom] = rect;
    let screen = &memory[word(record, GRAPHICS_BASE) as usize..][..SCREEN];
    copy_line(screen, shown, top as usize, left as usize, right as usize);
    let rest = if top + 1 < bottom { [left, top + 1, right, bottom] } else { [0; 4] };
    store_rect(record, in_hand(panel), rest);
    count_line(record, panel);
    [0, 1, top as u32, left as u32, right as u32]
}

/// The place of the first band that is not empty.
fn next_owed(record: &[u8], panel: usize) -> Option<usize> {
    (0..BANDS).map(|band| owed(panel, band)).find(|place| record[*place..place + RECT] != [0; RECT])
}

fn count_line(record: &mut [u8], panel: usize) {
    let count = double_word(record, lines_sent(panel)).saturating_add(1);
    record[lines_sent(panel)..][..4].copy_from_slice(&count.to_le_bytes());
}

/// The pixels from left to right of a line, from the screen to the panel.
pub fn copy_line(screen: &[u8], panel: &mut [u8], line: usize, left: usize, right: usize) {
    let from = &screen[line * LINE..][..LINE];
    let to = &mut panel[line * LINE..][..LINE];
    let (first, last) = (left / 8, (right - 1) / 8);
    let (start, end) = (0xff >> (left % 8), 0xff << (7 - (right - 1) % 8));
    if first == last {
        copy_bits(from[first], &mut to[first], start & end);
        return;
    }
    copy_bits(from[first], &mut to[first], start);
    to[first + 1..last].copy_from_slice(&from[first + 1..last]);
    copy_bits(from[last], &mut to[last], end);
}

fn copy_bits(from: u8, to: &mut u8, mask: u8) {
    *to = (*to & !mask) | (from & mask);
}
