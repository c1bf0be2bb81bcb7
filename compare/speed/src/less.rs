//! Calls less the entry, by the library before and by the library now: what a call does itself, its mark
//! included.

use crate::library::Library;
use crate::measure::{in_turn, median};
use crate::rows::{TWO_POINTS, opened};
use crate::side::ByCore;
use calls::{Buffers, Call};
use std::hint::black_box;

/// What any call tests, with one store.
const ENTRY: Call = Call::SetRow { row: 0 };

const CALLS: [(&str, Call); 4] = [
    ("point less entry", Call::DrawPoint { x: 77, y: 33, mode: 2 }),
    ("poke less entry", Call::WriteByte { address: 4500, byte: 0x5a }),
    ("box, two points 80 lines apart, less entry", TWO_POINTS),
    ("line, vertical, less entry", Call::DrawLine { x1: 80, y1: 0, x2: 80, y2: 79, mode: 2 }),
];

/// Print the table of both libraries.
pub fn report(before: Library, now: Library) {
    println!(
        "
A call less the entry, which is set_row on the record that the call leaves. Call and entry of both
libraries come in turn.
before ns  call less entry in one round, by the library before: the median
now ns     the same by the library now
ratio      now / before
"
    );
    println!("{:<64}{:>10}{:>10}{:>8}", "call", "before ns", "now ns", "ratio");
    for (name, call) in CALLS {
        let [before, now] = less_entry(before, now, call);
        println!("{name:<64}{before:>10.1}{now:>10.1}{:>8.2}", now / before);
    }
}

/// Nanoseconds of the call less those of the entry, by each library.
fn less_entry(before: Library, now: Library, call: Call) -> [f64; 2] {
    let mut call_now = side(now, call.clone());
    let mut call_before = side(before, call);
    call_before.share(&call_now);
    let mut entry_now = call_now.beside(work(now, ENTRY));
    let mut entry_before = call_before.beside(work(before, ENTRY));
    let rounds = in_turn([&mut call_before, &mut entry_before, &mut call_now, &mut entry_now]);
    let less = |call: usize| median(rounds.iter().map(|times| times[call] - times[call + 1]));
    [less(0), less(2)]
}

fn side(library: Library, call: Call) -> ByCore {
    ByCore::new(library.own(opened()), work(library, call))
}

fn work(library: Library, call: Call) -> impl Fn(&mut Buffers) {
    move |buffers| {
        black_box(library.answer(black_box(&call), buffers.lend(&call)));
    }
}
