//! The core against that of an earlier landing, in one run: the core's side of each row by both libraries.

use crate::library::{Library, Said};
use crate::measure::{Measured, measure};
use crate::rows::rows;
use crate::side::{ByCore, Side};
use calls::layout::PANELS;
use calls::{Answer, Call, DeviceCall, DeviceLent, Lent};
use driver::core_side::{Answering, DeviceAnswering};
use std::cell::{Cell, RefCell};
use std::collections::HashMap;

/// The library before, or `None` when speed is built without it.
pub fn linked() -> Option<Library> {
    #[cfg(feature = "before")]
    return Some(Library {
        answering: caption_before::answer,
        device: caption_before::device_answer,
        layout: crate::library::Layout { bands: caption_before::BANDS },
    });
    #[cfg(not(feature = "before"))]
    None
}

/// Print the table of both libraries.
pub fn report(before: Library, now: Library) {
    println!(
        "
The core's side of each row by the library before, of CAPTION_BEFORE, and by the library now, in turn.
before ns  one turn of the library before: the median
now ns     one turn of the library now: the median
ratio      now / before within a pair: the median
A row of which one of them lacks a call is left out. One whose first turn answers or leaves something
else is not measured, unless only the number of lines that it sends is another: both stand behind it.
"
    );
    println!("{:<64}{:>10}{:>10}{:>8}", "call", "before ns", "now ns", "ratio");
    for Pair { name, mut before, mut now, work } in pairs(before, now) {
        if work == Work::Other {
            println!("{name:<64}  not the same work");
            continue;
        }
        before.share(&now);
        let Measured { rust: by_before, core: by_now, ratio } = measure(&mut before, &mut now);
        println!("{name:<64}{by_before:>10.1}{by_now:>10.1}{ratio:>8.2}{}", work.in_words());
    }
}

/// A row that both libraries have all calls of.
pub struct Pair {
    pub name: String,
    pub before: ByCore,
    pub now: ByCore,
    pub work: Work,
}

/// Whether the first turns answer and leave the same.
#[derive(Debug, Clone, Copy, PartialEq, Eq)]
pub enum Work {
    Same,
    /// The panels come to show the same by other numbers of lines.
    OtherSends {
        before: usize,
        now: usize,
    },
    Other,
}

impl Work {
    fn of(before: &Turn, now: &Turn) -> Self {
        let sent = |turn: &Turn| turn.sends.iter().filter(|send| send.numbers[0] == 1).count();
        let alike = before.answers == now.answers && before.left == now.left;
        if alike && before.sends == now.sends && before.lines_sent == now.lines_sent {
            Self::Same
        } else if alike && sent(before) != sent(now) {
            Self::OtherSends { before: sent(before), now: sent(now) }
        } else {
            Self::Other
        }
    }

    fn in_words(self) -> String {
        match self {
            Self::OtherSends { before, now } => format!("  lines sent: {before} before, {now} now"),
            _ => String::new(),
        }
    }
}

pub fn pairs(before: Library, now: Library) -> Vec<Pair> {
    let [turns_before, turns_now] = [before, now].map(first_turns);
    let mut sides_before: HashMap<String, ByCore> = core_sides(before).collect();
    let pair = |(name, now): (String, ByCore)| {
        let work = Work::of(turns_before.get(&name)?, turns_now.get(&name)?);
        Some(Pair { before: sides_before.remove(&name)?, now, work, name })
    };
    core_sides(now).filter_map(pair).collect()
}

fn core_sides(library: Library) -> impl Iterator<Item = (String, ByCore)> {
    rows(Some(library)).into_iter().filter_map(|row| Some((row.name, row.core?)))
}

/// What a library answers in a turn, and what it leaves.
struct Turn {
    sends: Vec<Answer>,
    lines_sent: [u32; PANELS],
    /// Those of other calls.
    answers: Vec<Answer>,
    left: Left,
}

/// Memory, panels, and what the record says but for the lines sent.
#[derive(PartialEq)]
struct Left {
    memory: Vec<u8>,
    panels: [Vec<u8>; PANELS],
    fields: Vec<u8>,
    to_send: [[u16; 4]; PANELS],
}

/// An answer, and whether a send gave it.
type Noted = (bool, Option<Answer>);

thread_local! {
    static ASKED: Cell<Answering> = const { Cell::new(|_, _| None) };
    static ASKED_DEVICE: Cell<DeviceAnswering> = const { Cell::new(|_, _| None) };
    static ANSWERS: RefCell<Vec<Noted>> = const { RefCell::new(vec![]) };
}

/// The library that is asked, with its answers noted: too slow to be measured.
fn noting(call: &Call, lent: Lent) -> Option<Answer> {
    let answer = ASKED.get()(call, lent);
    let send = matches!(call, Call::Send { .. });
    ANSWERS.with_borrow_mut(|answers| answers.push((send, answer)));
    answer
}

/// The same for calls of the device.
fn noting_device(call: &DeviceCall, lent: DeviceLent) -> Option<Answer> {
    let answer = ASKED_DEVICE.get()(call, lent);
    ANSWERS.with_borrow_mut(|answers| answers.push((false, answer)));
    answer
}

/// The first turn of each row that the library has all calls of.
fn first_turns(library: Library) -> HashMap<String, Turn> {
    ASKED.set(library.answering);
    ASKED_DEVICE.set(library.device);
    let noted = Library { answering: noting, device: noting_device, ..library };
    core_sides(noted).filter_map(|(name, side)| Some((name, first_turn(library, side)?))).collect()
}

fn first_turn(library: Library, mut side: ByCore) -> Option<Turn> {
    ANSWERS.take();
    side.run(1);
    let (sends, others): (Vec<Noted>, Vec<Noted>) = ANSWERS.take().into_iter().partition(|(send, _)| *send);
    let answers = |noted: Vec<Noted>| noted.into_iter().map(|(_, answer)| answer).collect::<Option<Vec<_>>>();
    let left = side.left();
    let Said { fields, to_send, lines_sent } = library.layout.said(&left.record);
    let left = Left { memory: left.memory, panels: left.panels, fields, to_send };
    Some(Turn { sends: answers(sends)?, answers: answers(others)?, left, lines_sent })
}
