//! `paint_bitmap` and `paint_bitmap_by_bytes`, which change request 3 wants alike: bits of memory,
//! each line starting on a byte, painted onto the screen.

use crate::canvas::{Canvas, Mark, get_bit};
use crate::modes::PaintMode;
use crate::rect::Rect;
use calls::Refusal;
use calls::layout::{HEIGHT, MEMORY, WIDTH};

pub struct Bitmap {
    /// The source bytes as they were before the call.
    bytes: Vec<u8>,
    stride: usize,
    width: usize,
    height: usize,
}

impl Bitmap {
    /// `None` for a bitmap of zero size, which is tested before SOURCE.
    pub fn read(memory: &[u8], address: usize, width: usize, height: usize) -> Result<Option<Self>, Refusal> {
        if width == 0 || height == 0 {
            return Ok(None);
        }
        let stride = width.div_ceil(8);
        let end = address + stride * height;
        if end > MEMORY {
            return Err(Refusal::Source);
        }
        Ok(Some(Self { bytes: memory[address..end].to_vec(), stride, width, height }))
    }

    fn bit(&self, x: usize, y: usize) -> bool {
        get_bit(&self.bytes[y * self.stride..], x, 0)
    }

    /// Paint with the left top pixel at (x, y), cut to the screen.
    pub fn paint(&self, canvas: &mut Canvas, x: i32, y: i32, mode: PaintMode) -> Option<Mark> {
        let columns = visible(x, self.width, WIDTH)?;
        let rows = visible(y, self.height, HEIGHT)?;
        for row in rows.clone() {
            for column in columns.clone() {
                let source = self.bit((column as i64 - x as i64) as usize, (row as i64 - y as i64) as usize);
                canvas.put(column, row, |bit| painted(mode, source, bit));
            }
        }
        Some(Mark::plain(Rect::new(columns.start, rows.start, columns.end, rows.end)))
    }
}

/// The part of `size` places from `start` on that lies in 0..limit; `None` if there is none.
fn visible(start: i32, size: usize, limit: usize) -> Option<std::ops::Range<usize>> {
    let first = (start as i64).max(0);
    let end = (start as i64 + size as i64).min(limit as i64);
    (first < end).then_some(first as usize..end as usize)
}

fn painted(mode: PaintMode, source: bool, screen: bool) -> bool {
    match mode {
        PaintMode::Copy => source,
        PaintMode::Or => source || screen,
        PaintMode::Not => !source,
        PaintMode::And => source && screen,
        PaintMode::Xor => source != screen,
    }
}
