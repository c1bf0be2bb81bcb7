//! Faults around the gap, leads 170-175 and trails 161-254. Each shows in the first two cells alone,
//! where a flush starts to read: what they hold it takes as a pair, wherever the text goes on.

use super::{again, assert_found, assert_model_found, found, spoiled};
use calls::layout::*;
use calls::{Answer, Call, FontsLent, Lent};
use driver::judge::Judge;
use reference::in_gap;

type Glyph = [[u8; 2]; 16];

/// Where the text of a flush starts in the lent memory, if that is long enough.
fn text_start(call: &Call, lent: &Lent) -> Option<usize> {
    let whole = lent.record.len() == RECORD && lent.memory.len() == MEMORY;
    let start = || word(lent.record, TEXT_BASE) as usize;
    (whole && matches!(call, Call::Flush { .. })).then(start).filter(|start| start + 2 <= MEMORY)
}

fn first_pair(call: &Call, lent: &Lent) -> Option<[u8; 2]> {
    text_start(call, lent).map(|start| [lent.memory[start], lent.memory[start + 1]])
}

fn is_gap(pair: [u8; 2]) -> bool {
    in_gap(u16::from_be_bytes(pair))
}

/// The model, with this lead of a pair in the gap less six: as the reference, which shows rows 4-9.
fn still_gb(call: &Call, mut lent: Lent, still: u8) -> Answer {
    let Some(start) = text_start(call, &lent) else { return model::answer(call, lent) };
    let lead = lent.memory[start];
    if lead == still && is_gap([lead, lent.memory[start + 1]]) {
        lent.memory[start] -= 6;
    }
    let answer = model::answer(call, again(&mut lent));
    lent.memory[start] = lead;
    answer
}

/// The model, and then another glyph for such a pair.
fn shown_as(
    call: &Call,
    lent: Lent,
    meant: impl Fn([u8; 2]) -> bool,
    glyph: impl Fn([u8; 2]) -> Glyph,
) -> Answer {
    let pair = first_pair(call, &lent).filter(|pair| meant(*pair));
    spoiled(call, lent, |answer, lent| {
        let Some(pair) = pair.filter(|_| answer.accepted()) else { return };
        let screen = word(lent.record, GRAPHICS_BASE) as usize;
        for (line, bytes) in glyph(pair).into_iter().enumerate() {
            lent.memory[screen + line * LINE..][..2].copy_from_slice(&bytes);
        }
    })
}

fn empty(_: [u8; 2]) -> Glyph {
    [[0; 2]; 16]
}

fn hexadecimal(pair: [u8; 2]) -> Glyph {
    let font = FontsLent::whole(vec![]).ascii8();
    let digits = pair.map(|byte| format!("{byte:02X}").into_bytes());
    std::array::from_fn(|line| [0, 1].map(|column| font[8 * digits[column][line / 8] as usize + line % 8]))
}

#[test]
fn a_gap_one_lead_too_narrow() {
    assert_found(|call, lent| Some(still_gb(call, lent, 170)), 5);
    assert_found(|call, lent| Some(still_gb(call, lent, 175)), 5);
}

#[test]
fn an_empty_glyph_in_the_gap() {
    assert_found(|call, lent| Some(shown_as(call, lent, is_gap, empty)), 3);
}

#[test]
fn a_gap_pair_not_looked_up_in_the_extra_list() {
    fn without_gap_entries(fonts: &FontsLent) -> FontsLent {
        let kept = |entry: &&[u8]| entry.len() < EXTRA_ENTRY || !is_gap([entry[1], entry[0]]);
        let extra_list = fonts.extra_list.chunks(EXTRA_ENTRY).filter(kept).collect::<Vec<_>>().concat();
        FontsLent { extra_list, ..fonts.clone() }
    }
    assert_found(
        |call, lent| match call {
            Call::Flush { fonts } => {
                Some(model::answer(&Call::Flush { fonts: without_gap_entries(fonts) }, lent))
            }
            _ => Some(model::answer(call, lent)),
        },
        3,
    );
}

/// Pairs beside the gap are compared with the reference: it finds such a model without a core.
#[test]
fn a_gap_one_lead_too_wide() {
    fn before(call: &Call, lent: Lent) -> Answer {
        shown_as(call, lent, |[lead, trail]| lead == 169 && (161..=254).contains(&trail), hexadecimal)
    }
    fn after(call: &Call, lent: Lent) -> Answer {
        shown_as(call, lent, |[lead, trail]| lead == 176 && (161..=254).contains(&trail), hexadecimal)
    }
    assert_found(|call, lent| Some(before(call, lent)), 8);
    assert_model_found(before, 8);
    assert_found(|call, lent| Some(after(call, lent)), 8);
    assert_model_found(after, 8);
}

#[test]
fn a_fault_in_other_trails_of_the_gaps_leads() {
    fn below(call: &Call, lent: Lent) -> Answer {
        shown_as(call, lent, |pair| pair == [170, 160], empty)
    }
    fn above(call: &Call, lent: Lent) -> Answer {
        shown_as(call, lent, |pair| pair == [175, 255], empty)
    }
    assert_model_found(below, 3);
    assert_model_found(above, 3);
}

/// The reference shows other glyphs in the gap, and is not asked: only a core's fault is found.
#[test]
fn in_the_gap_a_model_is_not_held_to_the_reference() {
    fn answer(call: &Call, lent: Lent) -> Answer {
        shown_as(call, lent, is_gap, empty)
    }
    assert!(found(|thorough| Judge::with_model(answer, None, thorough)).is_none());
}
