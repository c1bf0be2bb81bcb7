//! Faults of a poke that finds line and column of its byte by a product and a shift: the model with the
//! mark found here in the place of its own. A wrong one lies mostly beside the glass.

use super::{assert_found, assert_model_found, found, found_among, marks, spoiled};
use calls::layout::*;
use calls::{Answer, Call, Lent};
use driver::exhaustive;
use driver::judge::Judge;
use driver::list::List;

/// Column and line of a screen byte.
type Finding = fn(u16) -> [u16; 2];

const STRIDE: u32 = LINE as u32;

/// The byte counted in lines of this stride, with so many places after the point: the part of a line makes
/// its column, the whole ones are its line.
fn by_product(byte: u16, stride: u32, multiplier: u32, shift: u32) -> [u16; 2] {
    let lines = byte as u32 * multiplier;
    let part = lines & ((1 << shift) - 1);
    [(part * stride) >> shift, lines >> shift].map(|number| number as u16)
}

fn right(byte: u16) -> [u16; 2] {
    by_product(byte, STRIDE, 13_108, 18)
}

/// 2^18 / 20 rounded down: every byte but the first is found one too far left, or at the end of the line above.
fn multiplier_one_too_small(byte: u16) -> [u16; 2] {
    by_product(byte, STRIDE, 13_107, 18)
}

fn shift_one_too_far(byte: u16) -> [u16; 2] {
    by_product(byte, STRIDE, 13_108, 19)
}

/// 2^14 / 20 rounded up: wrong from byte 1,024 on.
fn too_few_bits(byte: u16) -> [u16; 2] {
    by_product(byte, STRIDE, 820, 14)
}

/// The column from the quotient that still has its whole lines: wrong from line 1 on.
fn column_from_old_quotient(byte: u16) -> [u16; 2] {
    let lines = byte as u32 * 13_108;
    [((lines * STRIDE) >> 18) as u16, right(byte)[1]]
}

/// The column from the line of the byte before: wrong at the first byte of every line but line 0.
fn column_from_old_line(byte: u16) -> [u16; 2] {
    let [_, old_line] = right(byte.saturating_sub(1));
    [byte - LINE as u16 * old_line, right(byte)[1]]
}

fn column_always_0(byte: u16) -> [u16; 2] {
    [0, right(byte)[1]]
}

/// Its place on the screen, if this is a poke of a screen byte that is taken.
fn poked(call: &Call, record: &[u8]) -> Option<u16> {
    let Call::WriteByte { address, .. } = *call else { return None };
    let key = address < 256 && record[KEYS + address as usize / 8] >> (address % 8) & 1 == 1;
    let place = address.checked_sub(word(record, GRAPHICS_BASE))?;
    (address < 0xe000 && !key && place < SCREEN as u16).then_some(place)
}

/// The model, with a poke's mark where `finding` finds its byte.
fn answer(call: &Call, lent: Lent, finding: Finding) -> Answer {
    let before = lent.record.to_vec();
    spoiled(call, lent, |answer, lent| {
        if !answer.accepted() {
            return;
        }
        if let Some(byte) = poked(call, &before) {
            let [column, line] = finding(byte);
            let left = column.wrapping_mul(8);
            mark(lent.record, &before, [left, line, left.wrapping_add(8), line + 1]);
        }
    })
}

/// Dirty and what every panel is owed: as before, with this rectangle added, to the last band where it lies
/// below the glass.
fn mark(record: &mut [u8], before: &[u8], rect: [u16; 4]) {
    marks::restore_owed(record, before);
    let band = (rect[1] as usize / BAND).min(BANDS - 1);
    for place in [DIRTY].into_iter().chain((0..PANELS).map(|panel| owed(panel, band))) {
        marks::put(record, place, marks::join(four(before, place), rect));
    }
}

/// The exhaustive lists that poke every screen byte are the first: 26 for each of three bases.
fn pokes() -> impl Iterator<Item = List> {
    exhaustive::lists().take(78)
}

/// The first byte of so many lines that 2^shift / stride rounded up finds wrongly.
fn first_wrong(stride: u16, lines: u16, shift: u32) -> Option<u16> {
    let multiplier = (1_u32 << shift).div_ceil(stride as u32);
    let is_wrong =
        |byte: u16| by_product(byte, stride as u32, multiplier, shift) != [byte % stride, byte / stride];
    (0..stride * lines).find(|byte| is_wrong(*byte))
}

#[test]
fn fifteen_bits_are_the_fewest_for_this_glass() {
    assert!((15..=18).all(|shift| first_wrong(20, 80, shift).is_none()));
    assert!((0..15).all(|shift| first_wrong(20, 80, shift).is_some()));
    assert_eq!((first_wrong(20, 80, 14), too_few_bits(1_024)), (Some(1_024), [5, 51]));
}

/// 256 lines of up to 32 bytes; the lobby glass has 160 of 30.
#[test]
fn eighteen_bits_are_the_fewest_for_every_glass() {
    assert!((1..=32).all(|stride| first_wrong(stride, 256, 18).is_none()));
    assert_eq!(first_wrong(26, 256, 17), Some(6_554));
    assert_eq!([16, 17, 18].map(|shift| first_wrong(30, 160, shift)), [Some(4_682), Some(4_682), None]);
}

#[test]
fn this_poke_without_a_fault() {
    let whole = |call: &Call, lent: Lent| Some(answer(call, lent, right));
    assert!(found(|thorough| Judge::new(Some(whole), thorough)).is_none());
    assert!(found_among(pokes(), |thorough| Judge::new(Some(whole), thorough)).is_none());
}

#[test]
fn a_multiplier_one_too_small() {
    assert_both_found!(answer(multiplier_one_too_small), 2);
}

#[test]
fn a_shift_one_too_far() {
    assert_both_found!(answer(shift_one_too_far), 2);
}

#[test]
fn a_column_from_the_old_quotient() {
    assert_both_found!(answer(column_from_old_quotient), 2);
}

#[test]
fn a_column_from_the_line_before() {
    assert_both_found!(answer(column_from_old_line), 2);
}

#[test]
fn a_column_that_is_always_0() {
    assert_both_found!(answer(column_always_0), 2);
}

/// Shown at the first byte that it finds wrongly, as the exhaustive lists poke in address order.
#[test]
fn a_multiplier_with_too_few_bits() {
    assert_both_found!(answer(too_few_bits), 2);
    let core = |call: &Call, lent: Lent| Some(answer(call, lent, too_few_bits));
    let list = found_among(pokes(), |thorough| Judge::new(Some(core), thorough)).expect("the fault is found");
    let calls: Vec<Call> = list.steps.into_iter().map(|step| step.call).collect();
    assert_eq!(calls, [Call::WriteByte { address: 256 + 1_024, byte: 0 }]);
}
