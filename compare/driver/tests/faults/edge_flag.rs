//! Faults in how the edge flag is taken, tested and kept.

use super::{again, assert_found, assert_model_found, spoiled};
use calls::layout::*;
use calls::{Answer, Call, Lent, Refusal};

pub const CLAMP: u8 = 0;
pub const STOP: u8 = 1;

/// The model on a record with this flag, which gets its own back.
pub fn with_flag(call: &Call, mut lent: Lent, flag: u8) -> Answer {
    let own = lent.record[EDGE];
    lent.record[EDGE] = flag;
    let answer = model::answer(call, again(&mut lent));
    lent.record[EDGE] = own;
    answer
}

/// The call after which the flag has another value.
fn changes_flag(call: &Call, lent: Lent, changing: &str) -> Answer {
    spoiled(call, lent, |answer, lent| {
        if answer.accepted() && call.name() == changing {
            lent.record[EDGE] = CLAMP;
        }
    })
}

#[test]
fn a_reset_that_forgets_the_flag() {
    assert_both_found!(changes_flag("reset"), 3);
}

#[test]
fn other_calls_that_change_the_flag() {
    assert_both_found!(changes_flag("open"), 2);
    assert_both_found!(changes_flag("set_screen_mode"), 3);
    assert_both_found!(changes_flag("send"), 3);
}

#[test]
fn an_open_that_takes_other_values() {
    fn answer(call: &Call, lent: Lent, kept: fn(u8) -> u8) -> Answer {
        let Call::Open { graphics_base, text_base, version, keys, edge: told @ 2.. } = *call else {
            return model::answer(call, lent);
        };
        let taken = Call::Open { graphics_base, text_base, version, keys, edge: STOP };
        spoiled(&taken, lent, |answer, lent| {
            if answer.accepted() {
                lent.record[EDGE] = kept(told);
            }
        })
    }
    assert_both_found!(answer(|told| told), 2);
    assert_both_found!(answer(|_| STOP), 2);
    assert_both_found!(answer(|told| told % 2), 2);
}

/// What only a core can do wrong that the judge sees: refusals come from the model.
#[test]
fn state_that_takes_other_values() {
    assert_found(
        |call, lent| {
            let taken = lent.record.len() == RECORD && lent.record[EDGE] > STOP;
            let opens = matches!(call, Call::Open { .. });
            Some(if taken && !opens { with_flag(call, lent, STOP) } else { model::answer(call, lent) })
        },
        2,
    );
}

#[test]
fn a_record_without_the_flag_taken() {
    assert_found(
        |call, lent| {
            let mut record = lent.record.to_vec();
            if record.len() == EDGE {
                record.push(CLAMP);
            }
            let Lent { record: own, memory, panel } = lent;
            let answer = model::answer(call, Lent { record: &mut record, memory, panel });
            own.copy_from_slice(&record[..own.len()]);
            Some(answer)
        },
        2,
    );
}

#[test]
fn the_flag_tested_before_the_windows() {
    assert_found(
        |call, lent| {
            let answer = model::answer(call, lent);
            let other = matches!(call, Call::Open { edge: 2.., .. });
            let early = other && answer.code == Refusal::Window as u32;
            Some(if early { Answer::refused(Refusal::Value) } else { answer })
        },
        2,
    );
}
