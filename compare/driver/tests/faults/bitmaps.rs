//! Faults of a painter by bytes: the model with the painter here in the place of its own, which can be
//! wrong in one thing.

use super::{again, assert_found, assert_model_found, assert_short, found, found_among};
use calls::layout::*;
use calls::{Answer, Call, Lent, Painting};
use driver::exhaustive;
use driver::judge::Judge;
use std::ops::Range;

#[derive(Clone, Copy, PartialEq, Eq)]
enum Fault {
    None,
    ShiftsTheOtherWay,
    /// The bits beside the bitmap in a line's first byte, or its last, become 0.
    LosesBitsBefore,
    LosesBitsBehind,
    /// They become what the source holds beside the line: in the byte before it, or as padding.
    PaintsByteBefore,
    PaintsPadding,
    /// The source's last byte is taken for 0.
    MissesLastByte,
    /// The source is read while it is painted over.
    ReadsPainted,
    /// The same, upwards where it starts before the screen: right for lines as long as the screen's.
    ReadsPaintedUpwards,
    /// Only a source that starts in the screen is copied first.
    ReadsPaintedFromBefore,
    /// One that shares the screen's first byte alone is not.
    ReadsPaintedFirstByte,
}

struct Painter<'a> {
    fault: Fault,
    told: Painting,
    screen: usize,
    memory: &'a mut [u8],
    /// Memory as it was before.
    before: Vec<u8>,
}

impl Painter<'_> {
    fn paint(&mut self) {
        let Painting { x, y, width, height, .. } = self.told;
        let (columns, mut rows) = (seen(x, width, WIDTH), seen(y, height, HEIGHT));
        let upwards = self.fault == Fault::ReadsPaintedUpwards && self.starts_before();
        while let Some(row) = if upwards { rows.next_back() } else { rows.next() } {
            (columns.start / 8..columns.end.div_ceil(8))
                .for_each(|byte| self.paint_byte(row, byte, &columns));
        }
    }

    /// Paint these columns as far as they lie in a byte of the screen.
    fn paint_byte(&mut self, row: usize, byte: usize, columns: &Range<usize>) {
        let from_left = 0xff_u8 >> columns.start.saturating_sub(8 * byte);
        let to_right = 0xff_u8 << (8 * byte + 8).saturating_sub(columns.end);
        let (mut mask, mut kept) = (from_left & to_right, 0xff);
        match self.fault {
            Fault::LosesBitsBefore => kept = from_left,
            Fault::LosesBitsBehind => kept = to_right,
            Fault::PaintsByteBefore => mask = to_right,
            Fault::PaintsPadding => mask = from_left,
            _ => {}
        }
        let bits = self.bits(row, byte);
        let place = &mut self.memory[self.screen + row * LINE + byte];
        let painted = match self.told.mode {
            0 => bits,
            1 => bits | *place,
            2 => !bits,
            3 => bits & *place,
            _ => bits ^ *place,
        };
        *place = *place & kept & !mask | painted & mask;
    }

    /// The source's bits that fall on a byte of the screen.
    fn bits(&self, row: usize, byte: usize) -> u8 {
        let line = (row as i64 - self.told.y as i64) * Painting::source_bytes(self.told.width, 1) as i64;
        let first = 8 * byte as i64 - self.told.x as i64;
        let place = line + first.div_euclid(8);
        let [one, next] = [place, place + 1].map(|place| self.source_byte(place) as u16);
        let shift = first.rem_euclid(8);
        let both = match self.fault {
            Fault::ShiftsTheOtherWay => one << 8 >> shift | next << (8 - shift) << 8,
            _ => (one << 8 | next) << shift,
        };
        (both >> 8) as u8
    }

    /// A byte from the source's start on; those beside it are masked out where nothing is wrong.
    fn source_byte(&self, place: i64) -> u8 {
        let address = self.told.address as i64 + place;
        if self.fault == Fault::MissesLastByte && place == self.source_len() as i64 - 1 {
            return 0;
        }
        let bytes = if self.reads_painted() { &*self.memory } else { &self.before };
        usize::try_from(address).ok().and_then(|address| bytes.get(address)).copied().unwrap_or(0)
    }

    fn reads_painted(&self) -> bool {
        match self.fault {
            Fault::ReadsPainted | Fault::ReadsPaintedUpwards => true,
            Fault::ReadsPaintedFromBefore => self.starts_before(),
            Fault::ReadsPaintedFirstByte => self.told.address as usize + self.source_len() == self.screen + 1,
            _ => false,
        }
    }

    fn source_len(&self) -> usize {
        Painting::source_bytes(self.told.width, self.told.height)
    }

    fn starts_before(&self) -> bool {
        (self.told.address as usize) < self.screen
    }
}

/// Of so many places from `start` on those of the glass.
fn seen(start: i32, size: u8, limit: usize) -> Range<usize> {
    let end = (start as i64 + size as i64).clamp(0, limit as i64) as usize;
    (start.max(0) as usize).min(end)..end
}

/// The model with this painter by bytes.
fn answer(call: &Call, mut lent: Lent, fault: Fault) -> Answer {
    let Call::PaintBitmapByBytes { .. } = call else { return model::answer(call, lent) };
    let before = lent.memory.to_vec();
    let answer = model::answer(call, again(&mut lent));
    if let Some(told) = Painting::of(call).filter(|_| answer.accepted()) {
        lent.memory.copy_from_slice(&before);
        let screen = word(lent.record, GRAPHICS_BASE) as usize;
        Painter { fault, told, screen, memory: lent.memory, before }.paint();
    }
    answer
}

#[test]
fn this_painter_by_bytes_without_a_fault() {
    let whole = |call: &Call, lent: Lent| Some(answer(call, lent, Fault::None));
    assert!(found(|thorough| Judge::new(Some(whole), thorough)).is_none());
}

#[test]
fn a_shift_the_wrong_way() {
    assert_both_found!(answer(Fault::ShiftsTheOtherWay), 3);
}

#[test]
fn an_edge_byte_whose_other_bits_are_lost() {
    assert_both_found!(answer(Fault::LosesBitsBefore), 3);
    assert_both_found!(answer(Fault::LosesBitsBehind), 3);
}

#[test]
fn bits_beside_the_sources_line_that_are_painted() {
    assert_both_found!(answer(Fault::PaintsByteBefore), 3);
    assert_both_found!(answer(Fault::PaintsPadding), 3);
}

#[test]
fn the_last_source_byte_not_read() {
    assert_both_found!(answer(Fault::MissesLastByte), 3);
}

#[test]
fn a_source_read_while_it_is_painted_over() {
    assert_both_found!(answer(Fault::ReadsPainted), 3);
}

#[test]
fn an_order_of_lines_in_the_place_of_a_copy() {
    assert_both_found!(answer(Fault::ReadsPaintedUpwards), 3);
}

#[test]
fn a_source_over_the_screen_that_is_taken_for_one_apart() {
    assert_both_found!(answer(Fault::ReadsPaintedFromBefore), 3);
}

/// So seldom by chance that the exhaustive lists must find it; bitmaps are among their first.
#[test]
fn a_source_that_shares_the_screens_first_byte_alone() {
    let core = |call: &Call, lent: Lent| Some(answer(call, lent, Fault::ReadsPaintedFirstByte));
    let bitmaps = exhaustive::lists().take(1_000);
    assert_short(found_among(bitmaps, |thorough| Judge::new(Some(core), thorough)), 3);
}
