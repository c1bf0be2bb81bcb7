//! Faults around the bands that what is owed is kept by.

use super::marks::{EMPTY, is_empty, join, owe_by, part_in, put};
use super::panels::named;
use super::{again, assert_found, assert_model_found, found, spoiled};
use calls::layout::*;
use calls::{Answer, Call, Lent, Refusal};
use driver::judge::Judge;

/// The rectangle that a band is given of this mark.
type Share = fn(mark: [u16; 4], band: usize) -> [u16; 4];

/// The first band that holds a line of the mark.
fn first_band(mark: [u16; 4]) -> usize {
    mark[1] as usize / BAND
}

fn first_part_alone(mark: [u16; 4], band: usize) -> [u16; 4] {
    if band == first_band(mark) { part_in(mark, band) } else { EMPTY }
}

fn uncut_to_the_first(mark: [u16; 4], band: usize) -> [u16; 4] {
    if band == first_band(mark) { mark } else { EMPTY }
}

fn uncut_to_each(mark: [u16; 4], band: usize) -> [u16; 4] {
    if is_empty(part_in(mark, band)) { EMPTY } else { mark }
}

/// As one rectangle for the whole screen.
fn all_to_band_0(mark: [u16; 4], band: usize) -> [u16; 4] {
    if band == 0 { mark } else { EMPTY }
}

/// The other bands are never given anything, or the last one.
fn band_0_alone(mark: [u16; 4], band: usize) -> [u16; 4] {
    if band == 0 { part_in(mark, band) } else { EMPTY }
}

fn four_bands(mark: [u16; 4], band: usize) -> [u16; 4] {
    if band < 4 { part_in(mark, band) } else { EMPTY }
}

/// The bands' lowest lines are left out, or given to the band below.
fn one_line_too_few(mark: [u16; 4], band: usize) -> [u16; 4] {
    let [left, top, right, bottom] = part_in(mark, band);
    [left, top, right, bottom.min(16 * band as u16 + 15)]
}

fn cut_a_line_early(mark: [u16; 4], band: usize) -> [u16; 4] {
    let (first, last) = ((16 * band as u16).saturating_sub(1), 16 * band as u16 + 15);
    let last = if band == 4 { 80 } else { last };
    [mark[0], mark[1].max(first), mark[2], mark[3].min(last)]
}

fn all_of_the_band(mark: [u16; 4], band: usize) -> [u16; 4] {
    let top = 16 * band as u16;
    if is_empty(part_in(mark, band)) { EMPTY } else { [0, top, 160, top + 16] }
}

/// What an accepted call marks: what it owes over bands that are empty.
fn mark_of(call: &Call, record: &[u8], memory: &[u8]) -> [u16; 4] {
    let (mut record, mut memory) = (record.to_vec(), memory.to_vec());
    record[owed_part(0)].fill(0);
    model::answer(call, Lent { record: &mut record, memory: &mut memory, panel: &mut [] });
    (0..BANDS).fold(EMPTY, |mark, band| join(mark, four(&record, owed(0, band))))
}

/// The model, with each band's share of a mark found here; those of open and reset are its own.
fn answer(call: &Call, lent: Lent, share: Share) -> Answer {
    if matches!(call, Call::Open { .. } | Call::Reset | Call::Send { .. }) || !is_valid(&lent) {
        return model::answer(call, lent);
    }
    let before = lent.record.to_vec();
    let mark = mark_of(call, lent.record, lent.memory);
    spoiled(call, lent, |answer, lent| {
        if answer.accepted() && !is_empty(mark) {
            owe_by(lent.record, &before, |band| share(mark, band));
        }
    })
}

/// Whether the record has the right length and STATE lets it pass.
fn is_valid(lent: &Lent) -> bool {
    let mut record = lent.record.to_vec();
    let lent = Lent { record: &mut record, memory: &mut [], panel: &mut [] };
    model::answer(&Call::GetRow, lent).accepted()
}

#[test]
fn these_shares_without_a_fault() {
    let whole = |call: &Call, lent: Lent| Some(answer(call, lent, part_in));
    assert!(found(|thorough| Judge::new(Some(whole), thorough)).is_none());
}

#[test]
fn a_mark_joined_to_one_band_alone_or_to_all_but_one() {
    assert_both_found!(answer(first_part_alone), 2);
    assert_both_found!(answer(band_0_alone), 2);
    assert_both_found!(answer(four_bands), 2);
}

#[test]
fn a_mark_not_cut_at_the_edges_of_bands() {
    assert_both_found!(answer(uncut_to_the_first), 2);
    assert_both_found!(answer(uncut_to_each), 2);
}

#[test]
fn a_mark_cut_at_another_line() {
    assert_both_found!(answer(one_line_too_few), 3);
    assert_both_found!(answer(cut_a_line_early), 3);
}

#[test]
fn one_rectangle_for_the_whole_screen() {
    assert_both_found!(answer(all_to_band_0), 2);
}

#[test]
fn a_band_always_owed_whole() {
    assert_both_found!(answer(all_of_the_band), 3);
}

/// The model, after `take` has moved what is owed to a panel that has nothing in hand.
fn taking(call: &Call, mut lent: Lent, take: fn(&mut [u8], usize)) -> Answer {
    let empty_handed = |panel: &usize| four(lent.record, in_hand(*panel)) == EMPTY;
    let Some(panel) = named(call).filter(|panel| is_valid(&lent) && empty_handed(panel)) else {
        return model::answer(call, lent);
    };
    let before = lent.record.to_vec();
    take(lent.record, panel);
    let answer = model::answer(call, again(&mut lent));
    if !answer.accepted() {
        lent.record.copy_from_slice(&before);
    }
    answer
}

/// These bands of a panel, joined, come into its hand.
fn bring(record: &mut [u8], panel: usize, bands: impl IntoIterator<Item = usize>) {
    let mut hand = EMPTY;
    for place in bands.into_iter().map(|band| owed(panel, band)) {
        hand = join(hand, four(record, place));
        put(record, place, EMPTY);
    }
    put(record, in_hand(panel), hand);
}

/// Those that are not empty, top to bottom.
fn owing(record: &[u8], panel: usize) -> Vec<usize> {
    (0..BANDS).filter(|band| four(record, owed(panel, *band)) != EMPTY).collect()
}

#[test]
fn the_lowest_band_taken_first() {
    fn lowest(record: &mut [u8], panel: usize) {
        let bands = owing(record, panel);
        bring(record, panel, bands.into_iter().next_back());
    }
    assert_both_found!(taking(lowest), 2);
}

#[test]
fn a_send_that_takes_more_than_one_band() {
    fn two(record: &mut [u8], panel: usize) {
        let bands = owing(record, panel);
        bring(record, panel, bands.into_iter().take(2));
    }
    assert_both_found!(taking(two), 2);
    assert_both_found!(taking(|record, panel| bring(record, panel, 0..BANDS)), 2);
}

#[test]
fn a_send_that_empties_another_band() {
    fn all_emptied(record: &mut [u8], panel: usize) {
        let bands = owing(record, panel);
        bring(record, panel, bands.into_iter().take(1));
        record[owed_part(panel)].fill(0);
    }
    assert_both_found!(taking(all_emptied), 2);
}

#[test]
fn a_send_that_leaves_the_band_that_it_took() {
    fn answer(call: &Call, lent: Lent) -> Answer {
        let before = lent.record.to_vec();
        spoiled(call, lent, |answer, lent| {
            if let Some(panel) = named(call).filter(|_| answer.accepted()) {
                lent.record[owed_part(panel)].copy_from_slice(&before[owed_part(panel)]);
            }
        })
    }
    assert_both_found!(answer, 2);
}

/// What lies above goes first although there is something in hand, which is lost.
#[test]
fn a_band_taken_with_something_in_hand() {
    fn answer(call: &Call, mut lent: Lent) -> Answer {
        if let Some(panel) = named(call).filter(|_| is_valid(&lent)) {
            let first = owing(lent.record, panel).into_iter().next();
            let hand = four(lent.record, in_hand(panel));
            if first.is_some_and(|band| 16 * (band as u16 + 1) <= hand[1]) {
                put(lent.record, in_hand(panel), EMPTY);
            }
        }
        model::answer(call, again(&mut lent))
    }
    assert_both_found!(answer, 3);
}

/// The call made on the record with each owed rectangle changed, where STATE refuses it as it is: what only a
/// core can do wrong that the judge sees, as refusals come from the model.
fn lenient(call: &Call, mut lent: Lent, taken_for: Share) -> Answer {
    let answer = model::answer(call, again(&mut lent));
    if answer.code != Refusal::State as u32 {
        return answer;
    }
    let mut record = lent.record.to_vec();
    for (panel, band) in (0..PANELS).flat_map(|panel| (0..BANDS).map(move |band| (panel, band))) {
        let rect = four(&record, owed(panel, band));
        put(&mut record, owed(panel, band), taken_for(rect, band));
    }
    model::answer(call, Lent { record: &mut record, memory: lent.memory, panel: lent.panel })
}

#[test]
fn a_rectangle_one_line_outside_its_band_taken() {
    fn too_high([left, top, right, bottom]: [u16; 4], band: usize) -> [u16; 4] {
        let first = 16 * band as u16;
        [left, if top.wrapping_add(1) == first { first } else { top }, right, bottom]
    }
    fn too_low([left, top, right, bottom]: [u16; 4], band: usize) -> [u16; 4] {
        let end = 16 * band as u16 + 16;
        [left, top, right, if bottom == end + 1 { end } else { bottom }]
    }
    assert_found(|call, lent| Some(lenient(call, lent, too_high)), 2);
    assert_found(|call, lent| Some(lenient(call, lent, too_low)), 2);
}

#[test]
fn a_rectangle_of_another_band_taken() {
    fn anywhere(rect: [u16; 4], band: usize) -> [u16; 4] {
        let on_glass = !is_empty(rect) && rect[2] <= 160 && rect[3] <= 80;
        if on_glass { [0, 16 * band as u16, 160, 16 * band as u16 + 16] } else { rect }
    }
    assert_found(|call, lent| Some(lenient(call, lent, anywhere)), 2);
}

#[test]
fn bands_that_are_not_tested() {
    assert_found(
        |call, lent| Some(lenient(call, lent, |rect, band| if band == 0 { rect } else { EMPTY })),
        2,
    );
    assert_found(
        |call, lent| Some(lenient(call, lent, |rect, band| if band == 4 { EMPTY } else { rect })),
        2,
    );
}
