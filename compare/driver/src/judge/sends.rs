//! A send held to document 01 and change request 1 by itself: the reference has none, so the model's
//! is checked here against what is reckoned from the list.

use super::area::span;
use super::difference::{compare_bytes, compare_records};
use super::{Difference, Judge, Judged};
use calls::Answer;
use calls::layout::*;

impl Judge {
    /// What an accepted send to this panel answered, and that it left the record outside of the
    /// panel's part. `next` is the line that was due: line, first and last pixel.
    pub(super) fn check_send(
        &mut self,
        panel: usize,
        next: Option<[u32; 3]>,
        answer: &Answer,
        before: &[u8; RECORD],
    ) -> Judged<()> {
        let due = next.map_or([0; 4], |[line, first, last]| [1, line, first, last + 1]);
        if answer.numbers != due {
            let numbers = answer.numbers;
            return Err(Difference::new(format!(
                "a send to panel {panel} answers {numbers:?}, due is {due:?}"
            )));
        }
        let after = &self.own.model.record;
        let mut record = *before;
        record[part(panel)].copy_from_slice(&after[part(panel)]);
        compare_records("before", &record, "model", after)?;
        self.show(panel, next);
        Ok(())
    }

    /// A line comes to a panel: from now on it is due there.
    fn show(&mut self, panel: usize, next: Option<[u32; 3]>) {
        let Some([line, first, last]) = next else { return };
        let start = line as usize * LINE;
        let pixels: [u8; LINE] = std::array::from_fn(|byte| self.screen()[start + byte]);
        let shown = &mut self.shown[panel][start..start + LINE];
        for (byte, mask) in span(first, last).bits().into_iter().enumerate() {
            shown[byte] = shown[byte] & !mask | pixels[byte] & mask;
        }
    }

    /// Every panel shows what is due: the lines that were sent to it, else what it held at the start.
    pub(super) fn compare_shown(&self) -> Judged<()> {
        for (panel, (due, found)) in self.shown.iter().zip(&self.own.model.panels).enumerate() {
            if due != found {
                return compare_bytes(&format!("panel {panel}"), 0, "due", due, "model", found);
            }
        }
        Ok(())
    }

    pub(super) fn screen(&self) -> &[u8] {
        let graphics_base = word(&self.own.model.record, GRAPHICS_BASE) as usize;
        &self.own.model.memory[graphics_base..graphics_base + SCREEN]
    }
}
