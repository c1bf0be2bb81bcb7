//! The shortest script that shows a difference: lines and then bytes are left out as long as it
//! stays.

use super::program::Trial;
use std::cell::Cell;

/// Runs of the program until the script found so far is short enough: where the length itself is
/// what matters, nothing can be left out.
const MOST_RUNS: u32 = 3_000;

/// A trial that differs, no longer than the given one, which does.
pub fn shrink(trial: &Trial, differs: impl Fn(&Trial) -> bool) -> Trial {
    let runs = Cell::new(0);
    let differs = |trial: &Trial| {
        runs.set(runs.get() + 1);
        runs.get() <= MOST_RUNS && differs(trial)
    };
    let mut trial = trial.clone();
    let whole = Trial { piece: None, ..trial.clone() };
    if differs(&whole) {
        trial = whole;
    }
    loop {
        let before = trial.script.len();
        let with = |script: Vec<u8>| Trial { script, piece: trial.piece };
        let lines: Vec<&[u8]> = trial.script.split_inclusive(|byte| *byte == b'\n').collect();
        let lines = fewer(lines, |lines| differs(&with(lines.concat())));
        let script = fewer(lines.concat(), |bytes| differs(&with(bytes.to_vec())));
        trial = with(script);
        if trial.script.len() == before {
            return trial;
        }
    }
}

/// One part alone, if that is enough, else without each part that isn't needed: large parts first,
/// then one by one.
fn fewer<T: Clone>(mut items: Vec<T>, differs: impl Fn(&[T]) -> bool) -> Vec<T> {
    let mut size = items.len();
    while size > 0 {
        let mut start = 0;
        while start < items.len() {
            let end = (start + size).min(items.len());
            let alone = items[start..end].to_vec();
            let rest = [&items[..start], &items[end..]].concat();
            if size < items.len() && differs(&alone) {
                (items, start) = (alone, 0);
            } else if differs(&rest) {
                items = rest;
            } else {
                start = end;
            }
        }
        size /= 2;
    }
    items
}
