//! The judge finds faulty cores, and shows each with a short list. A faulty core here is the
//! model with something spoiled. The same spoiled model in the place of the model itself, with no
//! core beside it, is found by what the judge reckons from the list alone.

/// A fault as a core's and as a model's: of a function that takes call and lent bytes, and what is wrong
/// where there is a choice. A macro, as both are plain functions.
macro_rules! assert_both_found {
    ($answer:ident $(($fault:expr))?, $most_steps:expr) => {
        assert_found(|call, lent| Some($answer(call, lent $(, $fault)?)), $most_steps);
        assert_model_found(|call, lent| $answer(call, lent $(, $fault)?), $most_steps);
    };
}

mod bands;
mod bitmaps;
mod edge;
mod edge_flag;
mod gap;
mod marks;
mod panels;
mod pokes;

use calls::layout::*;
use calls::{Answer, Call, Lent};
use driver::core_side::Answering;
use driver::judge::{Judge, Modelling};
use driver::list::List;
use driver::random;
use driver::shrink::shrink;
use driver::tally::Tally;

/// The first random list that shows a difference, shrunk. A thorough judge compares memory whole
/// after every call.
fn found(judge: impl Fn(bool) -> Judge) -> Option<List> {
    found_among((0..2000).map(random::list), judge)
}

fn found_among(mut lists: impl Iterator<Item = List>, judge: impl Fn(bool) -> Judge) -> Option<List> {
    let mut quick = judge(false);
    let differing = lists.find(|list| quick.judge(list, &mut Tally::default()).is_err())?;
    shrink(&differing, &mut judge(true)).map(|(list, _)| list)
}

fn assert_short(list: Option<List>, most_steps: usize) {
    let list = list.expect("the fault is found");
    assert!(list.steps.len() <= most_steps, "too long:\n{list}");
}

/// A core with this fault is found.
fn assert_found(core: Answering, most_steps: usize) {
    assert_short(found(|thorough| Judge::new(Some(core), thorough)), most_steps);
}

/// A model with this fault is found, without a core.
fn assert_model_found(model: Modelling, most_steps: usize) {
    assert_short(found(|thorough| Judge::with_model(model, None, thorough)), most_steps);
}

/// The same bytes, lent on.
fn again<'a>(lent: &'a mut Lent) -> Lent<'a> {
    Lent { record: &mut *lent.record, memory: &mut *lent.memory, panel: &mut *lent.panel }
}

/// The model on the lent bytes, with its answer and what it leaves then spoiled.
fn spoiled(call: &Call, mut lent: Lent, spoil: impl FnOnce(&mut Answer, Lent)) -> Answer {
    let mut answer = model::answer(call, again(&mut lent));
    spoil(&mut answer, lent);
    answer
}

fn is_send(call: &Call) -> bool {
    matches!(call, Call::Send { .. })
}

#[test]
fn the_model_itself_is_no_fault() {
    let honest: Answering = |call, lent| Some(model::answer(call, lent));
    assert!(found(|thorough| Judge::new(Some(honest), thorough)).is_none());
}

#[test]
fn a_send_that_copies_nothing() {
    fn answer(call: &Call, lent: Lent) -> Answer {
        let panel = lent.panel.to_vec();
        spoiled(call, lent, |_, lent| lent.panel.copy_from_slice(&panel))
    }
    assert_found(|call, lent| Some(answer(call, lent)), 3);
    assert_model_found(answer, 3);
}

#[test]
fn idle_with_lines_owing() {
    fn answer(call: &Call, lent: Lent) -> Answer {
        if is_send(call) { Answer::done([0; 4]) } else { model::answer(call, lent) }
    }
    assert_found(|call, lent| Some(answer(call, lent)), 2);
    assert_model_found(answer, 2);
}

#[test]
fn a_made_up_lines_sent_count() {
    fn answer(call: &Call, lent: Lent) -> Answer {
        spoiled(call, lent, |answer, lent| {
            if is_send(call) && answer.accepted() {
                lent.record[lines_sent(0)] = 7;
            }
        })
    }
    assert_found(|call, lent| Some(answer(call, lent)), 2);
    assert_model_found(answer, 2);
}

#[test]
fn owed_always_the_whole_screen() {
    fn answer(call: &Call, lent: Lent) -> Answer {
        spoiled(call, lent, |answer, lent| {
            if answer.accepted() && lent.record[owed_part(0)].iter().any(|byte| *byte != 0) {
                for (band, top) in (0..BANDS).zip([0, 16, 32, 48, 64]) {
                    marks::put(lent.record, owed(0, band), [0, top, 160, top + 16]);
                }
            }
        })
    }
    assert_found(|call, lent| Some(answer(call, lent)), 82);
    assert_model_found(answer, 82);
}

#[test]
fn a_core_that_refuses_all() {
    assert_found(|_, _| Some(Answer { code: 2, numbers: [0; 4] }), 1);
}

#[test]
fn a_stray_byte_outside_the_windows() {
    fn answer(call: &Call, lent: Lent) -> Answer {
        spoiled(call, lent, |answer, lent| {
            if answer.accepted() && *call == Call::Newline {
                lent.memory[30_000] ^= 1;
            }
        })
    }
    assert_found(|call, lent| Some(answer(call, lent)), 2);
    assert_model_found(answer, 2);
}

#[test]
fn a_refusal_that_changes_a_byte() {
    fn answer(call: &Call, lent: Lent) -> Answer {
        spoiled(call, lent, |answer, lent| {
            if answer.code == 4 {
                lent.record[ROW] ^= 1;
            }
        })
    }
    assert_found(|call, lent| Some(answer(call, lent)), 2);
    assert_model_found(answer, 2);
}
