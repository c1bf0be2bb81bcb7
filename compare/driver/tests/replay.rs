//! The stored list holds all that is needed to replay it: the model reads it back and comes to
//! the reference's answers and checksums. No text of it holds a pair in the gap, and its opens have edge
//! flag 0.

use calls::layout::IN_REFERENCE;
use calls::{Buffers, Call, FontsLent, Painting};
use driver::replay;
use reference::{Reference, in_gap};

fn word(bytes: &[u8], place: usize) -> u16 {
    u16::from_le_bytes([bytes[place], bytes[place + 1]])
}

fn signed(bytes: &[u8], place: usize) -> i32 {
    i32::from_le_bytes([bytes[place], bytes[place + 1], bytes[place + 2], bytes[place + 3]])
}

fn painting(stored: &[u8]) -> Painting {
    Painting {
        address: word(stored, 1),
        x: signed(stored, 3),
        y: signed(stored, 7),
        width: stored[11],
        height: stored[12],
        mode: stored[13],
    }
}

fn call_of(stored: &[u8]) -> Call {
    let [a, b, c, d, e, f] = std::array::from_fn(|place| stored[1 + place]);
    match Call::NAMES[stored[0] as usize] {
        "open" => Call::Open {
            graphics_base: word(stored, 1),
            text_base: word(stored, 3),
            version: e,
            keys: [signed(stored, 6) as u32, 0, 0, 0, 0, 0, 0, signed(stored, 10) as u32],
            edge: stored[14],
        },
        "reset" => Call::Reset,
        "draw_point" => Call::DrawPoint { x: a, y: b, mode: c },
        "draw_line" => Call::DrawLine { x1: a, y1: b, x2: c, y2: d, mode: e },
        "draw_box" => Call::DrawBox { x1: a, y1: b, x2: c, y2: d, fill: e, mode: f },
        "draw_circle" => Call::DrawCircle { x: a, y: b, r: c, fill: d, mode: e },
        "draw_ellipse" => Call::DrawEllipse { x: a, y: b, rx: c, ry: d, fill: e, mode: f },
        "check_point" => Call::CheckPoint { x: signed(stored, 1), y: signed(stored, 5) },
        "paint_bitmap" => painting(stored).by_pixels(),
        "print" => Call::Print { text: stored[2..2 + a as usize].to_vec() },
        "newline" => Call::Newline,
        "cls" => Call::Cls,
        "flush" => Call::Flush { fonts: FontsLent::whole(vec![]) },
        "get_row" => Call::GetRow,
        "get_column" => Call::GetColumn,
        "set_row" => Call::SetRow { row: a },
        "set_column" => Call::SetColumn { column: a },
        "set_screen_mode" => Call::SetScreenMode { mode: a },
        "set_print_mode" => Call::SetPrintMode { mode: a },
        "blink_cursor" => Call::BlinkCursor,
        "clear_cursor" => Call::ClearCursor,
        "write_byte" => Call::WriteByte { address: word(stored, 1), byte: c },
        "take_dirty_area" => Call::TakeDirtyArea,
        "paint_bitmap_by_bytes" => painting(stored).by_bytes(),
        name => unreachable!("{name} is not replayed"),
    }
}

fn checksum(state: &Buffers) -> u32 {
    let record = &state.record;
    let [first, second] = IN_REFERENCE;
    let parts = [&record[first], &record[second], &state.memory];
    parts.concat().iter().fold(0, |sum: u32, byte| sum.wrapping_mul(31).wrapping_add(*byte as u32))
}

#[test]
fn the_model_replays_the_stored_list() {
    let replay = replay::make();
    let mut state = Buffers::zero();
    let lines: Vec<&str> = replay.stdout.lines().collect();
    assert_eq!(replay.stdin.len(), 16 * lines.len());
    for (stored, line) in replay.stdin.chunks(16).zip(lines) {
        let call = call_of(stored);
        let answer = model::answer(&call, state.lend(&call));
        let [a, b, c, d] = answer.numbers;
        let said = format!("{} {a} {b} {c} {d} {}", answer.code, checksum(&state));
        assert_eq!(said, line, "{call:?}");
    }
}

#[test]
fn the_list_is_made_alike_each_time() {
    let (one, other) = (replay::make(), replay::make());
    assert_eq!((one.stdin, one.stdout), (other.stdin, other.stdout));
}

#[test]
fn every_replayed_call_is_in_the_list() {
    let stdin = replay::make().stdin;
    for name in replay::names() {
        let number = Call::number_of(name).expect("a call's name");
        let count = stdin.chunks(16).filter(|stored| stored[0] as usize == number).count();
        let least = if ["open", "reset"].contains(&name) { 10 } else { 100 };
        assert!(count >= least, "{name}: {count}");
    }
}

/// The reference knows no other.
#[test]
fn every_open_has_edge_flag_0() {
    let replay = replay::make();
    let opens: Vec<&[u8]> = replay.stdin.chunks(16).filter(|stored| stored[0] == 0).collect();
    assert!(opens.len() >= 10 && opens.iter().all(|open| open[14..] == [0, 0]), "{opens:?}");
}

#[test]
fn no_text_holds_a_pair_in_the_gap() {
    let mut reference = Reference::default();
    for stored in replay::make().stdin.chunks(16) {
        let call = call_of(stored);
        if let Call::Flush { .. } = call {
            assert!(!reference.pairs_shown().into_iter().any(in_gap));
        }
        if let Call::Print { text } = &call {
            assert!(!text.windows(2).any(|two| in_gap(u16::from_be_bytes([two[0], two[1]]))), "{text:x?}");
        }
        reference.call(&call);
    }
}
