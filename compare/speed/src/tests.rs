//! What is measured is the same work on both sides, here with the model in the place of the core.

use crate::before::{Work, pairs};
use crate::library::{Layout, Library};
use crate::plain;
use crate::rows::{Row, rows};
use crate::side::Side;
use calls::layout::*;
use calls::{Answer, Buffers, Call, DeviceBuffers, DeviceCall, DeviceLent, Lent};
use driver::core_side::Answering;
use driver::random::Random;

fn model(call: &Call, lent: Lent) -> Option<Answer> {
    Some(model::answer(call, lent))
}

fn device(call: &DeviceCall, lent: DeviceLent) -> Option<Answer> {
    Some(model::device::answer(call, lent))
}

const MODEL: Library = Library { answering: model, device, layout: Layout::TODAY };

/// The model with other calls in the place of these.
fn today(answering: Answering) -> Library {
    Library::today(answering, device)
}

#[test]
fn both_sides_leave_the_same() {
    for mut row in rows(Some(MODEL)) {
        let mut core = row.core.expect("the model's side");
        for turns in [1, 1, 2, 3] {
            row.rust.run(turns);
            core.run(turns);
            let (by_rust, by_core) = (row.rust.left(), core.left());
            assert!(by_rust.memory == by_core.memory, "{}: memory", row.name);
            assert!(by_rust.panels == by_core.panels, "{}: panels", row.name);
        }
    }
}

#[test]
fn without_a_painter_by_bytes_nothing_of_it_is_measured() {
    fn without(call: &Call, lent: Lent) -> Option<Answer> {
        model(call, lent).filter(|_| !matches!(call, Call::PaintBitmapByBytes { .. }))
    }
    let by_bytes = |row: &Row| row.name.starts_with("bitmap by bytes");
    let of_core = |row: &Row| row.name.contains("core's");
    let [with, without]: [Vec<Row>; 2] =
        [model, without].map(|core| rows(Some(today(core))).into_iter().filter(by_bytes).collect());
    assert_eq!(with.iter().filter(|row| of_core(row)).count(), 3);
    assert!(with.iter().all(|row| row.core.is_some()));
    assert!(!without.is_empty() && !without.iter().any(|row| of_core(row) || row.core.is_some()));
}

#[test]
fn drawings_that_stop_are_measured_against_such_as_are_clamped() {
    let stopping = |row: &Row| row.name.ends_with("edge flag 1, core's flag 0");
    let with: Vec<Row> = rows(Some(MODEL)).into_iter().filter(stopping).collect();
    assert_eq!(with.len(), 5);
    for row in with {
        let core = row.core.expect("the model's side");
        assert_eq!([row.rust.left().record[EDGE], core.left().record[EDGE]], [0, 1], "{}", row.name);
    }
    assert!(!rows(None).iter().any(stopping));
}

#[test]
fn driven_lines_are_measured_against_sends() {
    let of_device = |row: &Row| row.name.starts_with("drive") || row.name.starts_with("controller");
    let against_send = |row: &Row| row.name.ends_with("core's send");
    let lacking = Library { device: |_, _| None, ..MODEL };
    let [with, without, alone]: [Vec<Row>; 3] =
        [Some(MODEL), Some(lacking), None].map(|core| rows(core).into_iter().filter(of_device).collect());
    assert_eq!((with.len(), with.iter().filter(|row| against_send(row)).count()), (8, 4));
    assert!(with.iter().all(|row| row.core.is_some() && row.limit.is_some() == against_send(row)));
    for rows in [without, alone] {
        assert!(rows.len() == 4 && !rows.iter().any(|row| against_send(row) || row.core.is_some()));
    }
}

/// What each library before has in common with the model, by the rows' names.
fn compared_with_model(before: Library) -> Vec<(String, Work)> {
    pairs(before, MODEL).into_iter().map(|pair| (pair.name, pair.work)).collect()
}

fn such(rows: &[(String, Work)], such: Work) -> Vec<&str> {
    rows.iter().filter(|(_, work)| *work == such).map(|(name, _)| name.as_str()).collect()
}

#[test]
fn a_library_before_that_does_the_same() {
    let all: Vec<String> = rows(Some(MODEL)).into_iter().map(|row| row.name).collect();
    assert_eq!(such(&compared_with_model(MODEL), Work::Same), all);
}

#[test]
fn rows_whose_call_the_library_before_lacks_are_left_out() {
    let compared = compared_with_model(today(|call, lent| {
        let lacks = matches!(call, Call::Newline | Call::PaintBitmapByBytes { .. });
        if lacks { None } else { model(call, lent) }
    }));
    let lacking = ["newline", "cue", "cursor and clock", "bitmap by bytes"];
    let without = |name: &String| !lacking.iter().any(|of| name.starts_with(of));
    let all = rows(Some(MODEL)).into_iter().map(|row| row.name);
    let due: Vec<(String, Work)> = all.filter(without).map(|name| (name, Work::Same)).collect();
    assert_eq!(compared, due);
}

#[test]
fn other_bytes_or_answers_of_the_library_before_are_seen() {
    let other_bytes = compared_with_model(today(|call, lent| match *call {
        Call::WriteByte { address, byte } => model(&Call::WriteByte { address, byte: byte ^ 1 }, lent),
        _ => model(call, lent),
    }));
    let others = such(&other_bytes, Work::Other);
    assert!(others.len() == 3 && others.iter().all(|name| name.contains("poke")), "{others:?}");
    let other_answers = compared_with_model(today(|call, lent| {
        let answer = model(call, lent);
        if *call == Call::Cls { answer.map(|_| Answer { code: 1, numbers: [0; 4] }) } else { answer }
    }));
    assert_eq!(such(&other_answers, Work::Other).len(), 3, "{other_answers:?}");
    let other_count = compared_with_model(today(|call, lent| {
        let Lent { record, memory, panel } = lent;
        let answer = model(call, Lent { record: &mut *record, memory, panel });
        if *call == (Call::Send { number: 0 }) {
            record[lines_sent(2)] = record[lines_sent(2)].wrapping_add(1);
        }
        answer
    }));
    assert_eq!(such(&other_count, Work::Other).len(), 10, "{other_count:?}");
}

/// Where the parts of the panels start in a record with one band.
const PARTS: [usize; PANELS] = [18, 170, 190, 210];

/// Today's record for one with one band.
fn banded(one: &[u8]) -> Vec<u8> {
    let mut today = vec![0; RECORD];
    today[..18].copy_from_slice(&one[..18]);
    today[KEYS..FLAGS_END].copy_from_slice(&one[38..170]);
    today[EDGE] = one[230];
    for (panel, start) in PARTS.into_iter().enumerate() {
        let [left, top, right, bottom] = four(one, start);
        for (band, first) in (0..BANDS).zip([0, 16, 32, 48, 64]) {
            let (top, bottom) = (top.max(first), bottom.min(first + 16));
            if top < bottom {
                plain::store_rect(&mut today, owed(panel, band), [left, top, right, bottom]);
            }
        }
        today[in_hand(panel)..part(panel).end].copy_from_slice(&one[start + 8..start + 20]);
    }
    today
}

/// The model as it was with one band: a send with nothing in hand takes all that is owed.
fn with_one_band(call: &Call, lent: Lent) -> Option<Answer> {
    let Lent { record, memory, panel } = lent;
    if let Call::Send { number } = *call {
        let start = PARTS[number as usize];
        if record[start + 8..start + 16] == [0; 8] {
            record.copy_within(start..start + 8, start + 8);
            record[start..start + 8].fill(0);
        }
    }
    let mut today = banded(record);
    let answer = model::answer(call, Lent { record: &mut today, memory, panel });
    record.copy_from_slice(&Layout { bands: 1 }.record(&today));
    Some(answer)
}

#[test]
fn a_library_before_with_one_band() {
    let before = Library { answering: with_one_band, device: |_, _| None, layout: Layout { bands: 1 } };
    for (name, work) in compared_with_model(before) {
        let due = match name.as_str() {
            "cursor and clock, plain Rust copies" => Work::OtherSends { before: 80, now: 32 },
            _ => Work::Same,
        };
        assert_eq!(work, due, "{name}");
    }
}

/// That of CAPTION_BEFORE: the entry, a drawing and a send are the same work as today's. With one band it sends
/// all lines from the cursor to the clock.
#[cfg(feature = "before")]
#[test]
fn the_linked_library_before_does_the_same() {
    let before = crate::before::linked().expect("the library before");
    let compared = compared_with_model(before);
    let same = such(&compared, Work::Same);
    for name in ["set_row, plain", "point", "line, horizontal", "send, a line"] {
        assert!(same.iter().any(|row| row.starts_with(name)), "{name}: {compared:?}");
    }
    if before.layout.bands == 1 {
        let others = such(&compared, Work::OtherSends { before: 80, now: 32 });
        assert_eq!(others, ["cursor and clock, plain Rust copies"]);
    }
}

/// Bytes of any kind under a record that is valid, or has one byte changed.
fn any_bytes(random: &mut Random) -> Buffers {
    let mut buffers = Buffers::zero();
    random.fill(&mut buffers.memory);
    buffers.panels.iter_mut().for_each(|panel| random.fill(panel));
    let edge = random.below(2) as u8;
    buffers.record = random.valid_record(edge);
    if random.one_in(4) {
        let place = random.below(buffers.record.len());
        buffers.record[place] = random.byte();
    }
    buffers
}

#[test]
fn plain_functions_do_what_the_model_does() {
    let mut random = Random::new(1);
    for _ in 0..5_000 {
        let before = any_bytes(&mut random);
        let row = random.below(8) as u8;
        let (mut plain, mut model) = (before.clone(), before.clone());
        let code = plain::set_row(&mut plain.record, row);
        let set_row = Call::SetRow { row };
        assert_eq!(code, model::answer(&set_row, model.lend(&set_row)).code);
        assert!(plain == model, "set_row {row} on {before:?}");
        for number in [0, 1, 2, 3, random.panel_number(&[1; PANELS])] {
            let send = Call::Send { number };
            let lent = plain.lend(&send);
            let numbers = plain::send(lent.record, lent.memory, lent.panel, number);
            let answer = model::answer(&send, model.lend(&send));
            assert_eq!((numbers[0], &numbers[1..]), (answer.code, &answer.numbers[..]));
            assert!(plain == model, "send to {number} on {:?}", before.record);
        }
    }
}

#[test]
fn plain_functions_of_registers_do_what_the_model_does() {
    let mut random = Random::new(1);
    let mut accepted = 0;
    for _ in 0..50_000 {
        let mut plain = DeviceBuffers::zero();
        random.fill(&mut plain.panel);
        plain.registers.copy_from_slice(&random.any_registers());
        let mut by_model = plain.clone();
        let register = random.register_number();
        let value = random.register_value(register);
        let write = DeviceCall::Write { register, value };
        let code = plain::write(&mut plain.registers, &mut plain.panel, register, value);
        assert_eq!(code, model::device::answer(&write, by_model.lend()).code);
        assert!(plain == by_model, "{write:?}");
        accepted += (code == 0) as u32;
        let read = DeviceCall::Read { register };
        let numbers = plain::read(&mut plain.registers, &plain.panel, register);
        let answer = model::device::answer(&read, by_model.lend());
        assert_eq!(numbers, [answer.code, answer.numbers[0]]);
        assert!(plain == by_model, "{read:?}");
    }
    assert!(accepted > 5_000, "{accepted}");
}
