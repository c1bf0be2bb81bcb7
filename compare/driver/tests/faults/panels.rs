//! Faults around the four panels.

use super::{again, assert_found, assert_model_found, is_send, spoiled};
use calls::layout::*;
use calls::{Answer, Call, Lent, Refusal};

/// The panel that a send names, if there is one of its number.
pub fn named(call: &Call) -> Option<usize> {
    match call {
        Call::Send { number } if (*number as usize) < PANELS => Some(*number as usize),
        _ => None,
    }
}

/// The model, and then the panels' parts of the record as they were, for some panels.
fn parts_stay(call: &Call, lent: Lent, panels: impl Iterator<Item = usize>) -> Answer {
    let before = lent.record.to_vec();
    spoiled(call, lent, |answer, lent| {
        if answer.accepted() {
            panels.for_each(|panel| lent.record[part(panel)].copy_from_slice(&before[part(panel)]));
        }
    })
}

#[test]
fn a_mark_that_reaches_panel_0_alone() {
    fn answer(call: &Call, lent: Lent) -> Answer {
        let marks = !is_send(call) && !matches!(call, Call::Open { .. } | Call::Reset);
        parts_stay(call, lent, (1..PANELS).filter(|_| marks))
    }
    assert_both_found!(answer, 3);
}

#[test]
fn a_mark_that_misses_the_last_panel() {
    fn answer(call: &Call, lent: Lent) -> Answer {
        let marks = !is_send(call) && !matches!(call, Call::Open { .. } | Call::Reset);
        parts_stay(call, lent, (3..PANELS).filter(|_| marks))
    }
    assert_both_found!(answer, 3);
}

#[test]
fn an_open_that_reaches_panel_0_alone() {
    fn answer(call: &Call, lent: Lent) -> Answer {
        parts_stay(call, lent, (1..PANELS).filter(|_| matches!(call, Call::Open { .. })))
    }
    assert_both_found!(answer, 1);
}

#[test]
fn a_reset_that_owes_panel_0_alone() {
    fn answer(call: &Call, lent: Lent) -> Answer {
        parts_stay(call, lent, (1..PANELS).filter(|_| *call == Call::Reset))
    }
    assert_both_found!(answer, 3);
}

#[test]
fn a_send_that_takes_another_panels_owed_area() {
    fn answer(call: &Call, mut lent: Lent) -> Answer {
        let Some(panel) = named(call) else { return model::answer(call, lent) };
        let exchange = |record: &mut [u8]| {
            for (own, other) in owed_part(panel).zip(owed_part((panel + 1) % PANELS)) {
                record.swap(own, other);
            }
        };
        let takes = lent.record.len() == RECORD && lent.record[in_hand(panel)..][..8] == [0; 8];
        if takes {
            exchange(lent.record);
        }
        let answer = model::answer(call, again(&mut lent));
        if takes {
            exchange(lent.record);
        }
        answer
    }
    assert_both_found!(answer, 3);
}

#[test]
fn a_count_kept_once_for_all_panels() {
    fn answer(call: &Call, lent: Lent) -> Answer {
        spoiled(call, lent, |answer, lent| {
            let sent = answer.accepted() && answer.numbers[0] == 1;
            if let Some(panel) = named(call).filter(|_| sent) {
                let count: [u8; 4] = std::array::from_fn(|k| lent.record[lines_sent(panel) + k]);
                for other in 0..PANELS {
                    lent.record[lines_sent(other)..][..4].copy_from_slice(&count);
                }
            }
        })
    }
    assert_both_found!(answer, 2);
}

#[test]
fn a_count_that_is_panel_0s() {
    fn answer(call: &Call, lent: Lent) -> Answer {
        spoiled(call, lent, |answer, lent| {
            let sent = answer.accepted() && answer.numbers[0] == 1;
            if let Some(panel) = named(call).filter(|panel| sent && *panel != 0) {
                lent.record[lines_sent(panel)] = lent.record[lines_sent(panel)].wrapping_sub(1);
                lent.record[lines_sent(0)] = lent.record[lines_sent(0)].wrapping_add(1);
            }
        })
    }
    assert_both_found!(answer, 2);
}

#[test]
fn a_reset_that_empties_a_rectangle_in_hand() {
    fn emptied(call: &Call, lent: Lent, panel: usize) -> Answer {
        spoiled(call, lent, |answer, lent| {
            if answer.accepted() && *call == Call::Reset {
                lent.record[in_hand(panel)..][..8].fill(0);
            }
        })
    }
    fn first(call: &Call, lent: Lent) -> Answer {
        emptied(call, lent, 0)
    }
    fn last(call: &Call, lent: Lent) -> Answer {
        emptied(call, lent, 3)
    }
    assert_both_found!(first, 3);
    assert_both_found!(last, 3);
}

#[test]
fn a_reset_that_forgets_a_count() {
    fn answer(call: &Call, lent: Lent) -> Answer {
        spoiled(call, lent, |answer, lent| {
            if answer.accepted() && *call == Call::Reset {
                lent.record[lines_sent(2)..][..4].fill(0);
            }
        })
    }
    assert_both_found!(answer, 3);
}

/// Numbers above 3 taken for panels again.
#[test]
fn a_send_accepted_with_number_4() {
    fn answer(call: &Call, lent: Lent) -> Answer {
        match call {
            Call::Send { number } => model::answer(&Call::Send { number: number % 4 }, lent),
            _ => model::answer(call, lent),
        }
    }
    assert_both_found!(answer, 2);
}

#[test]
fn a_send_refused_with_number_3() {
    fn answer(call: &Call, lent: Lent) -> Answer {
        match call {
            Call::Send { number: 3 } => Answer::refused(Refusal::Panel),
            _ => model::answer(call, lent),
        }
    }
    assert_both_found!(answer, 2);
}

#[test]
fn a_send_that_touches_another_panels_part() {
    fn answer(call: &Call, lent: Lent) -> Answer {
        spoiled(call, lent, |answer, lent| {
            if *call == (Call::Send { number: 2 }) && answer.accepted() {
                lent.record[part(1)].fill(0);
            }
        })
    }
    assert_both_found!(answer, 2);
}

/// One panel's idle answer given for another.
#[test]
fn idle_while_another_panel_is_level() {
    fn answer(call: &Call, lent: Lent) -> Answer {
        let empty = |record: &[u8], panel: usize| {
            record[part(panel).start..lines_sent(panel)].iter().all(|byte| *byte == 0)
        };
        let level = lent.record.len() == RECORD && (0..PANELS).any(|panel| empty(lent.record, panel));
        if is_send(call) && level {
            let before = lent.record.to_vec();
            let panel = lent.panel.to_vec();
            return spoiled(call, lent, |answer, lent| {
                if answer.accepted() {
                    *answer = Answer::done([0; 4]);
                    lent.record.copy_from_slice(&before);
                    lent.panel.copy_from_slice(&panel);
                }
            });
        }
        model::answer(call, lent)
    }
    assert_both_found!(answer, 3);
}

/// What only a core can do wrong that the judge sees: refusals come from the model.
#[test]
fn state_that_tests_panel_0_alone() {
    assert_found(
        |call, mut lent| {
            let answer = model::answer(call, again(&mut lent));
            if answer.code != Refusal::State as u32 {
                return Some(answer);
            }
            let mut record = lent.record.to_vec();
            record[ADDED[1].clone()].fill(0);
            Some(model::answer(call, Lent { record: &mut record, memory: lent.memory, panel: lent.panel }))
        },
        2,
    );
}

/// One that ends before the parts of panels 1 to 3, and one with one band for each panel.
#[test]
fn a_shorter_record_taken() {
    fn answer(call: &Call, mut lent: Lent, length: usize) -> Answer {
        if lent.record.len() != length {
            return model::answer(call, again(&mut lent));
        }
        let mut record = lent.record.to_vec();
        record.resize(RECORD, 0);
        model::answer(call, Lent { record: &mut record, memory: lent.memory, panel: lent.panel })
    }
    assert_found(|call, lent| Some(answer(call, lent, FLAGS_END)), 2);
    assert_found(|call, lent| Some(answer(call, lent, 231)), 2);
}

#[test]
fn panel_tested_before_state_or_lent() {
    fn first(call: &Call, lent: Lent, before: Refusal) -> Answer {
        let answer = model::answer(call, lent);
        let none = is_send(call) && named(call).is_none();
        if none && answer.code == before as u32 { Answer::refused(Refusal::Panel) } else { answer }
    }
    assert_found(|call, lent| Some(first(call, lent, Refusal::State)), 2);
    assert_found(|call, lent| Some(first(call, lent, Refusal::Lent)), 2);
}
