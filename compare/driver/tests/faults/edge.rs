//! Faults of drawings that know the edge flag: the model with something wrong in what it draws, marks or owes
//! beyond the glass.

use super::edge_flag::{CLAMP, STOP, with_flag};
use super::{again, assert_short, found_among, marks, spoiled};
use calls::layout::*;
use calls::{Answer, Call, Lent};
use driver::core_side::Answering;
use driver::judge::{Judge, Modelling};
use driver::list::List;
use driver::{exhaustive, random};

#[derive(Clone, Copy, PartialEq, Eq)]
enum Fault {
    /// Pixels and marks of lines that are clamped, or their pixels alone.
    Clamps,
    ClampsPixels,
    /// What is owed, or one side of it, is lowered; or its last line is missing.
    LowersLeft,
    LowersTop,
    OwesTooLittle,
    /// Dirty is cut to the glass, or left as it was where nothing is drawn.
    CutsDirty,
    LeavesOutDirty,
    /// Of a line that is partly on the glass nothing is drawn.
    DrawsNoPart,
    /// The last column is left out, or the one behind it drawn: the next line's first.
    DrawsTo158,
    DrawsTo160,
    /// Lines are cut at the right, and those below the glass drawn on the last line.
    DrawsBelow,
}

/// Every seventh of the exhaustive lists of the edges, as they go through many drawings alike; then random
/// lists.
fn lists() -> impl Iterator<Item = List> {
    exhaustive::edges().step_by(7).chain((0..2_000).map(random::list))
}

fn assert_found(core: Answering, most_steps: usize) {
    assert_short(found_among(lists(), |thorough| Judge::new(Some(core), thorough)), most_steps);
}

fn assert_model_found(model: Modelling, most_steps: usize) {
    assert_short(found_among(lists(), |thorough| Judge::with_model(model, None, thorough)), most_steps);
}

/// Horizontal lines, boxes of each kind, filled ellipses.
#[derive(Clone, Copy, PartialEq, Eq)]
enum Kind {
    Line,
    Filled,
    Outline,
    Disc,
}

fn kind(call: &Call) -> Option<Kind> {
    match *call {
        Call::DrawLine { y1, y2, .. } if y1 == y2 => Some(Kind::Line),
        Call::DrawBox { fill: 1, .. } => Some(Kind::Filled),
        Call::DrawBox { .. } => Some(Kind::Outline),
        Call::DrawCircle { fill: 1, .. } | Call::DrawEllipse { fill: 1, .. } => Some(Kind::Disc),
        _ => None,
    }
}

/// A drawing, what it was lent as it stood before, and what the model has left.
struct Drawn<'a> {
    call: &'a Call,
    before: Lent<'a>,
    lent: Lent<'a>,
}

impl Drawn<'_> {
    fn spoil(&mut self, fault: Fault) {
        let [left, top, right, bottom] = self.mark();
        match fault {
            Fault::Clamps => {
                self.again_with(self.call, CLAMP);
                self.lent.record.copy_from_slice(self.before.record);
                self.lent.record[EDGE] = STOP;
                self.lent.memory.copy_from_slice(self.before.memory);
            }
            Fault::ClampsPixels => self.pixels_of(self.call),
            Fault::LowersLeft => self.owe([left.min(159), top, right, bottom]),
            Fault::LowersTop => self.owe([left, top.min(79), right, bottom]),
            Fault::OwesTooLittle => self.owe([left, top, right, bottom.min(79)]),
            Fault::CutsDirty => self.put_dirty([left, top, right.min(160), bottom.min(80)]),
            Fault::LeavesOutDirty if left > 159 || top > 79 => self.put_dirty([0; 4]),
            Fault::DrawsNoPart if left < 160 && right > 160 => {
                self.lent.memory.copy_from_slice(self.before.memory);
            }
            Fault::DrawsTo158 if right > 160 => self.undraw_last_column(),
            Fault::DrawsTo160 if left < 161 && right > 160 && top < 80 => {
                let screen = word(self.lent.record, GRAPHICS_BASE) as usize;
                self.lent.memory[screen + (top as usize + 1) * LINE] ^= 0x80;
            }
            Fault::DrawsBelow if left < 160 => self.pixels_of(&cut_at_the_right(self.call)),
            _ => {}
        }
    }

    /// The rectangle around a line or a box. A disc, where only pixels are spoiled, counts as larger than the
    /// glass.
    fn mark(&self) -> [u16; 4] {
        match *self.call {
            Call::DrawLine { x1, y1, x2, y2, .. } | Call::DrawBox { x1, y1, x2, y2, .. } => {
                let [left, top, right, bottom] = [x1.min(x2), y1.min(y2), x1.max(x2), y1.max(y2)];
                [left.into(), top.into(), right as u16 + 1, bottom as u16 + 1]
            }
            _ => [0, 0, 256, 256],
        }
    }

    /// Make a call on the bytes as they stood before, with this flag.
    fn again_with(&mut self, call: &Call, flag: u8) {
        self.before.record[EDGE] = flag;
        model::answer(call, again(&mut self.before));
    }

    /// The pixels of a call that is clamped.
    fn pixels_of(&mut self, call: &Call) {
        self.again_with(call, CLAMP);
        self.lent.memory.copy_from_slice(self.before.memory);
    }

    /// Every panel is owed what it was, and this rectangle as far as it lies on the glass.
    fn owe(&mut self, [left, top, right, bottom]: [u16; 4]) {
        marks::owe(self.lent.record, self.before.record, [left, top, right.min(160), bottom]);
    }

    /// Dirty as it was before, with this rectangle added.
    fn put_dirty(&mut self, rect: [u16; 4]) {
        marks::put(self.lent.record, DIRTY, marks::join(four(self.before.record, DIRTY), rect));
    }

    fn undraw_last_column(&mut self) {
        let screen = word(self.lent.record, GRAPHICS_BASE) as usize;
        for place in (screen..screen + SCREEN).skip(LINE - 1).step_by(LINE) {
            self.lent.memory[place] = self.lent.memory[place] & !1 | self.before.memory[place] & 1;
        }
    }
}

fn cut_at_the_right(call: &Call) -> Call {
    match *call {
        Call::DrawBox { x1, y1, x2, y2, fill, mode } => {
            Call::DrawBox { x1: x1.min(159), y1, x2: x2.min(159), y2, fill, mode }
        }
        ref other => other.clone(),
    }
}

/// The model, with this fault in drawings of a kind that are to stop at the edge.
fn answer(call: &Call, mut lent: Lent, (wrong, fault): (Kind, Fault)) -> Answer {
    let whole = lent.record.len() == RECORD && lent.memory.len() == MEMORY;
    if kind(call) != Some(wrong) || !whole || lent.record[EDGE] != STOP {
        return model::answer(call, lent);
    }
    let (mut record, mut memory) = (lent.record.to_vec(), lent.memory.to_vec());
    let answer = model::answer(call, again(&mut lent));
    if answer.accepted() {
        let before = Lent { record: &mut record, memory: &mut memory, panel: &mut [] };
        Drawn { call, before, lent }.spoil(fault);
    }
    answer
}

#[test]
fn lines_that_are_clamped_with_flag_1() {
    assert_both_found!(answer((Kind::Line, Fault::Clamps)), 2);
    assert_both_found!(answer((Kind::Filled, Fault::Clamps)), 2);
    assert_both_found!(answer((Kind::Outline, Fault::Clamps)), 2);
    assert_both_found!(answer((Kind::Disc, Fault::Clamps)), 2);
}

/// The reference is not asked about the last line and the last column: only a core's fault is found at once.
#[test]
fn pixels_that_are_clamped_with_flag_1() {
    assert_found(|call, lent| Some(answer(call, lent, (Kind::Line, Fault::ClampsPixels))), 2);
    assert_found(|call, lent| Some(answer(call, lent, (Kind::Filled, Fault::ClampsPixels))), 2);
    assert_found(|call, lent| Some(answer(call, lent, (Kind::Outline, Fault::ClampsPixels))), 2);
    assert_found(|call, lent| Some(answer(call, lent, (Kind::Disc, Fault::ClampsPixels))), 2);
}

#[test]
fn a_left_or_top_that_is_lowered_with_flag_1() {
    assert_both_found!(answer((Kind::Line, Fault::LowersLeft)), 2);
    assert_both_found!(answer((Kind::Line, Fault::LowersTop)), 2);
    assert_both_found!(answer((Kind::Filled, Fault::LowersLeft)), 2);
    assert_both_found!(answer((Kind::Filled, Fault::LowersTop)), 2);
    assert_both_found!(answer((Kind::Outline, Fault::LowersLeft)), 2);
    assert_both_found!(answer((Kind::Outline, Fault::LowersTop)), 2);
}

#[test]
fn too_little_owed_with_flag_1() {
    assert_both_found!(answer((Kind::Outline, Fault::OwesTooLittle)), 2);
    assert_both_found!(answer((Kind::Filled, Fault::OwesTooLittle)), 2);
    assert_both_found!(answer((Kind::Line, Fault::OwesTooLittle)), 2);
}

/// The reference marks as it does with flag 0, so that it finds such a model too.
#[test]
fn less_marked_in_dirty_with_flag_1() {
    assert_both_found!(answer((Kind::Line, Fault::CutsDirty)), 2);
    assert_both_found!(answer((Kind::Line, Fault::LeavesOutDirty)), 2);
    assert_both_found!(answer((Kind::Filled, Fault::CutsDirty)), 2);
    assert_both_found!(answer((Kind::Filled, Fault::LeavesOutDirty)), 2);
    assert_both_found!(answer((Kind::Outline, Fault::CutsDirty)), 2);
    assert_both_found!(answer((Kind::Outline, Fault::LeavesOutDirty)), 2);
}

#[test]
fn a_line_partly_on_the_glass_not_drawn() {
    assert_both_found!(answer((Kind::Line, Fault::DrawsNoPart)), 2);
    assert_both_found!(answer((Kind::Filled, Fault::DrawsNoPart)), 2);
}

#[test]
fn one_pixel_too_few_or_too_many() {
    assert_found(|call, lent| Some(answer(call, lent, (Kind::Line, Fault::DrawsTo158))), 2);
    assert_found(|call, lent| Some(answer(call, lent, (Kind::Filled, Fault::DrawsTo158))), 2);
    assert_found(|call, lent| Some(answer(call, lent, (Kind::Disc, Fault::DrawsTo158))), 2);
    assert_both_found!(answer((Kind::Line, Fault::DrawsTo160)), 2);
}

#[test]
fn a_row_below_the_glass_drawn_on_the_last_one() {
    assert_found(|call, lent| Some(answer(call, lent, (Kind::Filled, Fault::DrawsBelow))), 2);
    assert_found(|call, lent| Some(answer(call, lent, (Kind::Outline, Fault::DrawsBelow))), 2);
}

/// One that wraps marks and owes the whole screen with either flag.
#[test]
fn a_disc_that_wraps_and_marks_nothing_with_flag_1() {
    fn answer(call: &Call, lent: Lent, place: usize) -> Answer {
        let wraps = matches!(*call, Call::DrawEllipse { x, rx, ry: 1.., fill: 1, .. } if rx > x);
        let before = lent.record.to_vec();
        spoiled(call, lent, |answer, lent| {
            if wraps && answer.accepted() && before[EDGE] == STOP {
                lent.record[place..place + 8].copy_from_slice(&before[place..place + 8]);
            }
        })
    }
    assert_both_found!(answer(DIRTY), 2);
    assert_both_found!(answer(owed(2, 3)), 2);
}

/// It is a box in the reference, and the same with either flag.
#[test]
fn a_cursor_that_knows_the_flag() {
    fn answer(call: &Call, lent: Lent) -> Answer {
        let memory = lent.memory.to_vec();
        spoiled(call, lent, |answer, lent| {
            if *call == Call::BlinkCursor && answer.accepted() && lent.record[EDGE] == STOP {
                lent.memory.copy_from_slice(&memory);
            }
        })
    }
    super::assert_found(|call, lent| Some(answer(call, lent)), 3);
    super::assert_model_found(answer, 3);
}

#[test]
fn lines_that_stop_with_flag_0() {
    fn answer(call: &Call, lent: Lent, wrong: Kind) -> Answer {
        let stops = lent.record.len() == RECORD && lent.record[EDGE] == CLAMP;
        if stops && kind(call) == Some(wrong) {
            with_flag(call, lent, STOP)
        } else {
            model::answer(call, lent)
        }
    }
    assert_both_found!(answer(Kind::Line), 2);
    assert_both_found!(answer(Kind::Filled), 2);
    assert_both_found!(answer(Kind::Outline), 2);
    assert_both_found!(answer(Kind::Disc), 2);
}
