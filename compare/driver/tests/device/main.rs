//! The judge of device calls finds faulty cores, and shows each with a short list. A faulty core here is the model
//! with something spoiled. The same spoiled model in the place of the model itself, with no core beside it, is
//! found by the second reading of change request 7 and by direct sends.

/// A fault as a core's and as a model's: of a function that takes call and lent bytes, and what is wrong where
/// there is a choice. A macro, as both are plain functions.
macro_rules! assert_both_found {
    ($answer:ident $(($fault:expr))?, $most_steps:expr) => {
        $crate::assert_found(|call, lent| Some($answer(call, lent $(, $fault)?)), $most_steps);
        $crate::assert_model_found(|call, lent| $answer(call, lent $(, $fault)?), $most_steps);
    };
}

mod controller;
mod lines;
mod lists;
mod refusals;

use calls::{Answer, DeviceBuffers, DeviceCall, DeviceLent};
use driver::core_side::{Answering, DeviceAnswering};
use driver::device::judge::{Core, Judge, Modelling};
use driver::device::list::List;
use driver::device::random;
use driver::device::run::Turns;
use driver::device::shrink::shrink;
use driver::device::tally::Tally;

const SCREEN: Answering = |call, lent| Some(model::answer(call, lent));

/// The first random list that shows a difference, shrunk.
fn found(judge: impl Fn() -> Judge) -> Option<List> {
    let mut quick = judge();
    let differing =
        (0..2_000).map(random::list).find(|list| quick.judge(list, &mut Tally::default()).is_err())?;
    shrink(&differing, &mut judge()).map(|(list, _)| list)
}

fn assert_short(list: Option<List>, most_steps: usize) {
    let list = list.expect("the fault is found");
    assert!(list.steps.len() <= most_steps, "too long:\n{list}");
}

/// A core with this fault is found.
fn assert_found(device: DeviceAnswering, most_steps: usize) {
    assert_short(found(|| Judge::new(Some(Core { device, screen: SCREEN }))), most_steps);
}

/// A model with this fault is found, without a core.
fn assert_model_found(model: Modelling, most_steps: usize) {
    assert_short(found(|| Judge::with_model(model, None)), most_steps);
}

/// The same bytes, lent on.
fn again<'a>(lent: &'a mut DeviceLent) -> DeviceLent<'a> {
    let DeviceLent { record, memory, registers, panel, image } = lent;
    DeviceLent { record, memory, registers, panel, image }
}

/// What was lent, but for memory.
fn kept(lent: &DeviceLent) -> DeviceBuffers {
    DeviceBuffers {
        record: lent.record.to_vec(),
        memory: vec![],
        registers: lent.registers.to_vec(),
        panel: lent.panel.to_vec(),
        image: lent.image.to_vec(),
    }
}

/// The model on the lent bytes, with what an accepted call leaves then spoiled.
fn spoiled(
    call: &DeviceCall,
    mut lent: DeviceLent,
    spoil: impl FnOnce(&DeviceBuffers, &mut Answer, DeviceLent),
) -> Answer {
    let before = kept(&lent);
    let mut answer = model::device::answer(call, again(&mut lent));
    if answer.accepted() {
        spoil(&before, &mut answer, lent);
    }
    answer
}

/// A write to this register, and its value.
fn written(call: &DeviceCall, to: usize) -> Option<u8> {
    match *call {
        DeviceCall::Write { register, value } if register as usize == to => Some(value),
        _ => None,
    }
}

fn is_drive(call: &DeviceCall) -> bool {
    matches!(call, DeviceCall::Drive { .. })
}

/// With the model as the core.
#[test]
fn the_model_itself_is_no_fault() {
    let device: DeviceAnswering = |call, lent| Some(model::device::answer(call, lent));
    assert!(found(|| Judge::new(Some(Core { device, screen: SCREEN }))).is_none());
}

/// A fiftieth of a full run meets everything that is counted a fiftieth as often at least.
#[test]
fn everything_that_is_counted_is_met() {
    for seed in [1, 2] {
        let (mut turns, mut tally, mut judge) = (Turns::new(seed), Tally::default(), Judge::new(None));
        while tally.calls() < 200_000 {
            judge.judge(&turns.next_list(), &mut tally).expect("no difference");
        }
        for met in tally.all_met() {
            assert!(met.count >= 20, "{}: {}", met.what, met.count);
        }
    }
}

#[test]
fn a_core_that_refuses_all() {
    assert_found(|_, _| Some(Answer { code: 2, numbers: [0; 4] }), 5);
}

/// Of one call alone.
#[test]
fn a_call_that_does_nothing() {
    fn answer(call: &DeviceCall, lent: DeviceLent, number: usize) -> Answer {
        let nothing = call.number() == number && model::device::causes(call, &lent).first().is_none();
        if nothing { Answer::done([0; 4]) } else { model::device::answer(call, lent) }
    }
    assert_both_found!(answer(0), 5);
    assert_both_found!(answer(1), 5);
    assert_both_found!(answer(2), 5);
}
