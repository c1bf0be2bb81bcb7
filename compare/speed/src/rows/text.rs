//! Printing, newlines, clearing and the cursor.

use super::{Row, TEXT_START, opened};
use crate::library::Library;
use crate::limits;
use calls::layout::{CELLS, COLUMN, ROW, SCREEN_MODE};
use calls::{Buffers, Call};

pub fn rows(core: Option<Library>) -> Vec<Row> {
    let mut rows = prints(core);
    rows.extend(newlines(core));
    rows.push(Row::call("cls", Call::Cls, opened(), core));
    rows.push(Row::call("blink_cursor, one cell", Call::BlinkCursor, opened(), core));
    let mut pair = opened();
    pair.memory[TEXT_START..][..2].copy_from_slice(&[176, 161]);
    rows.push(Row::call("blink_cursor, two cells", Call::BlinkCursor, pair, core));
    rows
}

/// One byte a cell.
pub fn bytes(count: usize) -> Vec<u8> {
    (0..count).map(|k| 32 + (k % 90) as u8).collect()
}

/// So many pairs from these bytes on.
pub fn pairs(count: usize, lead: u8, trail: u8) -> Vec<u8> {
    (0..count as u8).flat_map(|k| [lead + k % 4, trail + k]).collect()
}

fn prints(core: Option<Library>) -> Vec<Row> {
    let print = |name, text| placed(name, Call::Print { text }, opened(), (0, 0), core);
    vec![
        print("print, one byte", bytes(1)),
        print("print, a row of 20 bytes", bytes(20)).limit(limits::PRINT_ROW),
        print("print, a row of 10 pairs", pairs(10, 176, 161)).limit(limits::PRINT_PAIRS),
        print("print, a page of 100 bytes", bytes(CELLS)).limit(limits::PRINT_PAGE),
    ]
}

fn newlines(core: Option<Library>) -> Vec<Row> {
    let mut graph = opened();
    graph.record[SCREEN_MODE] = 1;
    vec![
        placed("newline, to the next row", Call::Newline, opened(), (0, 5), core),
        placed("newline, scrolls in Text", Call::Newline, opened(), (4, 5), core),
        placed("newline, scrolls in Graph", Call::Newline, graph, (4, 5), core),
    ]
}

/// A call that finds row and column as they are here each time.
fn placed(name: &str, call: Call, start: Buffers, (row, column): (u8, u8), core: Option<Library>) -> Row {
    Row::call_after(
        name,
        call,
        start,
        core,
        move |reference| reference.set_place(row, column),
        move |buffers| {
            buffers.record[ROW] = row;
            buffers.record[COLUMN] = column;
        },
    )
}
