//! Every call: its refusals in their order, then what it does.

use crate::bitmap::Bitmap;
use crate::canvas::{Mark, get_bit};
use crate::record::{Record, windows_fit};
use crate::rect::Rect;
use crate::{boxes, ellipse, lines, modes};
use calls::layout::*;
use calls::{Answer, Call, Lent, Refusal};

type Numbers = Result<[u32; 4], Refusal>;

const NOTHING: [u32; 4] = [0; 4];

/// What the call answers; the lent bytes become what it leaves.
pub fn answer(call: &Call, lent: Lent) -> Answer {
    match make(call, lent) {
        Ok(numbers) => Answer::done(numbers),
        Err(refusal) => Answer::refused(refusal),
    }
}

fn make(call: &Call, lent: Lent) -> Numbers {
    if !lengths_right(call, &lent) {
        return Err(Refusal::Lent);
    }
    if let Call::Open { .. } = call {
        return open(call, lent);
    }
    let mut record = Record::read(lent.record).ok_or(Refusal::State)?;
    let numbers = act(call, &mut record, lent.memory, lent.panel)?;
    record.write(lent.record);
    Ok(numbers)
}

/// LENT: every call takes the record; most take memory too, send the panel, flush an extra list.
fn lengths_right(call: &Call, lent: &Lent) -> bool {
    let record = lent.record.len() == RECORD;
    let memory = lent.memory.len() == MEMORY;
    match call {
        Call::GetRow
        | Call::GetColumn
        | Call::SetRow { .. }
        | Call::SetColumn { .. }
        | Call::SetPrintMode { .. }
        | Call::TakeDirtyArea => record,
        Call::Send { .. } => record && memory && lent.panel.len() == PANEL,
        Call::Flush { fonts } => record && memory && fonts.extra_list.len() % EXTRA_ENTRY == 0,
        _ => record && memory,
    }
}

fn open(call: &Call, lent: Lent) -> Numbers {
    let Call::Open { graphics_base, text_base, version, keys, edge } = *call else {
        unreachable!("not an open");
    };
    let (graphics_base, text_base) = (graphics_base as usize, text_base as usize);
    if !windows_fit(graphics_base, text_base) {
        return Err(Refusal::Window);
    }
    let version = modes::version(version).ok_or(Refusal::Value)?;
    let edge = modes::edge(edge).ok_or(Refusal::Value)?;
    let record = Record::fresh(graphics_base, text_base, version, keys, edge);
    clear_memory(&record, lent.memory);
    record.write(lent.record);
    Ok(NOTHING)
}

/// Reset keeps bases, version, keys, the edge flag, and of each panel the rectangle in hand and lines
/// sent.
fn reset(record: &mut Record, memory: &mut [u8]) {
    let Record { graphics_base, text_base, version, keys, edge, .. } = *record;
    let mut fresh = Record::fresh(graphics_base, text_base, version, keys, edge);
    for (pending, before) in fresh.panels.iter_mut().zip(&record.panels) {
        pending.in_hand = before.in_hand;
        pending.lines_sent = before.lines_sent;
    }
    *record = fresh;
    clear_memory(record, memory);
}

/// Zeros, the last byte 0x40, the key addresses 0xff.
fn clear_memory(record: &Record, memory: &mut [u8]) {
    memory.fill(0);
    memory[0xffff] = 0x40;
    for (address, byte) in memory.iter_mut().enumerate().take(256) {
        if record.is_key(address) {
            *byte = 0xff;
        }
    }
}

/// The call on a record that STATE let pass. Nothing is written before the last refusal.
fn act(call: &Call, record: &mut Record, memory: &mut [u8], panel: &mut [u8]) -> Numbers {
    match *call {
        Call::Open { .. } => unreachable!("open doesn't read the old record"),
        Call::Reset => reset(record, memory),
        Call::DrawPoint { .. }
        | Call::DrawLine { .. }
        | Call::DrawBox { .. }
        | Call::DrawCircle { .. }
        | Call::DrawEllipse { .. } => draw(call, record, memory)?,
        Call::CheckPoint { x, y } => return Ok([check_point(record, memory, x, y) as u32, 0, 0, 0]),
        Call::PaintBitmap { address, x, y, width, height, mode }
        | Call::PaintBitmapByBytes { address, x, y, width, height, mode } => {
            let mode = modes::paint_mode(mode)?;
            if let Some(bitmap) = Bitmap::read(memory, address as usize, width as usize, height as usize)? {
                record.draw(memory, |canvas| bitmap.paint(canvas, x, y, mode));
            }
        }
        Call::Print { ref text } => record.print(memory, text),
        Call::Newline => record.newline(memory),
        Call::Cls => record.cls(memory),
        Call::Flush { ref fonts } => record.flush(memory, fonts)?,
        Call::GetRow => return Ok([record.row as u32, 0, 0, 0]),
        Call::GetColumn => return Ok([record.column as u32, 0, 0, 0]),
        Call::SetRow { row } => record.row = below(row, ROWS)?,
        Call::SetColumn { column } => record.column = below(column, COLUMNS)?,
        Call::SetScreenMode { mode } => {
            record.screen_mode = modes::screen_mode(mode).ok_or(Refusal::Value)?;
            record.cls(memory);
        }
        Call::SetPrintMode { mode } => {
            record.set_print_mode(modes::print_mode(mode).ok_or(Refusal::Value)?);
        }
        Call::BlinkCursor => record.blink_cursor(memory),
        Call::ClearCursor => record.clear_cursor(memory),
        Call::WriteByte { address, byte } => write_byte(record, memory, address as usize, byte),
        Call::TakeDirtyArea => return Ok(take_dirty_area(record)),
        Call::Send { number } => return record.send(memory, panel, number),
    }
    Ok(NOTHING)
}

fn draw(call: &Call, record: &mut Record, memory: &mut [u8]) -> Result<(), Refusal> {
    match *call {
        Call::DrawPoint { x, y, mode } => {
            let mode = modes::draw_mode(mode)?;
            record.draw(memory, |canvas| lines::point(canvas, x as usize, y as usize, mode));
        }
        Call::DrawLine { x1, y1, x2, y2, mode } => {
            let mode = modes::draw_mode(mode)?;
            record.draw(memory, |canvas| lines::line(canvas, pair(x1, y1), pair(x2, y2), mode));
        }
        Call::DrawBox { x1, y1, x2, y2, fill, mode } => {
            let (fill, mode) = (modes::fill_flag(fill)?, modes::draw_mode(mode)?);
            record.draw(memory, |canvas| boxes::draw_box(canvas, pair(x1, y1), pair(x2, y2), fill, mode));
        }
        Call::DrawCircle { x, y, r, fill, mode } => {
            draw_ellipse(record, memory, pair(x, y), pair(r, r), fill, mode)?;
        }
        Call::DrawEllipse { x, y, rx, ry, fill, mode } => {
            draw_ellipse(record, memory, pair(x, y), pair(rx, ry), fill, mode)?;
        }
        _ => unreachable!("not a drawing"),
    }
    Ok(())
}

fn draw_ellipse(
    record: &mut Record,
    memory: &mut [u8],
    centre: (usize, usize),
    radii: (usize, usize),
    fill: u8,
    mode: u8,
) -> Result<(), Refusal> {
    let (fill, mode) = (modes::fill_flag(fill)?, modes::draw_mode(mode)?);
    match ellipse::parts(radii.0, radii.1, fill, mode)? {
        None => record.draw(memory, |canvas| ellipse::early(canvas, centre, radii, mode)),
        Some(parts) => {
            record.draw(memory, |canvas| ellipse::ellipse(canvas, centre, radii, &parts, fill, mode));
        }
    }
    Ok(())
}

fn pair(x: u8, y: u8) -> (usize, usize) {
    (x as usize, y as usize)
}

fn below(number: u8, limit: usize) -> Result<usize, Refusal> {
    if (number as usize) < limit { Ok(number as usize) } else { Err(Refusal::Value) }
}

fn check_point(record: &Record, memory: &mut [u8], x: i32, y: i32) -> bool {
    (0..WIDTH as i32).contains(&x)
        && (0..HEIGHT as i32).contains(&y)
        && get_bit(record.screen(memory), x as usize, y as usize)
}

/// Ignored in fixed memory, at 0xe000 and above, and at key addresses. On the screen it marks the byte's pixels.
fn write_byte(record: &mut Record, memory: &mut [u8], address: usize, byte: u8) {
    if address >= FIXED_MEMORY || record.is_key(address) {
        return;
    }
    memory[address] = byte;
    let screen = record.graphics_base..record.graphics_base + SCREEN;
    if screen.contains(&address) {
        let place = address - record.graphics_base;
        let (x, y) = (place % LINE * 8, place / LINE);
        record.draw(memory, |_| Some(Mark::plain(Rect::new(x, y, x + 8, y + 1))));
    }
}

fn take_dirty_area(record: &mut Record) -> [u32; 4] {
    record.dirty.take().map_or(NOTHING, |r| [r.left, r.top, r.right, r.bottom].map(|side| side as u32))
}
