//! A run: exhaustive and random lists in turn, until a number of calls is reached or two sides
//! differ.

use crate::core_side::Answering;
use crate::judge::Judge;
use crate::list::List;
use crate::progress::Progress;
use crate::shrink::shrink;
use crate::tally::Tally;
use crate::{exhaustive, random};
use std::iter::Peekable;

/// The calls of a full run.
pub const FULL: u64 = 10_000_000;

/// So many of its flushes, at least, show a pair in the gap.
const GAP_FLUSHES: u64 = 10_000;

/// So many bitmaps, at least, are painted by bytes where the core is compared.
const PAINTED_BY_BYTES: u64 = 100_000;

pub struct Run {
    pub calls: u64,
    pub seed: u64,
    pub core: Option<Answering>,
    pub exhaustive: bool,
}

impl Run {
    /// Print what was compared; true if nothing differs and enough was compared.
    pub fn run(&self) -> bool {
        self.say_what_is_due();
        let mut turns = Turns::new(self.seed, self.exhaustive);
        let mut tally = Tally::default();
        let mut judge = Judge::new(self.core, false);
        let mut progress = Progress::new(self.calls, "calls");
        while tally.calls() < self.calls {
            let list = turns.next_list();
            if let Err(difference) = judge.judge(&list, &mut tally) {
                progress.clear();
                println!("DIFFERENCE {difference}");
                self.show(&list);
                tally.print(self.core.is_some());
                println!("{} calls, 1 difference", tally.calls());
                return false;
            }
            progress.show(tally.calls());
        }
        progress.clear();
        tally.print(self.core.is_some());
        println!("exhaustive lists: {} of {}", turns.exhaustive_done, exhaustive::lists().count());
        println!("{:.0} calls a second", tally.calls() as f64 / progress.seconds());
        println!("{} calls, 0 differences", tally.calls());
        let enough = [
            self.has_enough_gap_flushes(tally.gap_flushes.all),
            self.has_enough_by_bytes(tally.painted_by_bytes()),
            self.has_enough_that_stop(tally.lists[1], tally.all_lists()),
        ];
        enough == [true; 3]
    }

    /// The reference says nothing about pairs in the gap: without flushes of our own that show them
    /// the rule would go untested.
    fn has_enough_gap_flushes(&self, count: u64) -> bool {
        self.has_enough("flushes with a pair in the gap", count, GAP_FLUSHES)
    }

    /// The core alone has a painter by bytes: its shifts, masks and overlaps want many cases.
    fn has_enough_by_bytes(&self, count: u64) -> bool {
        self.core.is_none()
            || self.has_enough("accepted calls of paint_bitmap_by_bytes", count, PAINTED_BY_BYTES)
    }

    /// What stops at the edge has a definition of its own: two lists in five, at least, have edge flag 1 where
    /// the core is compared.
    fn has_enough_that_stop(&self, count: u64, lists: u64) -> bool {
        self.core.is_none() || self.has_enough("lists with edge flag 1", count, (2 * lists).div_ceil(5))
    }

    /// Whether a full run has enough of something.
    fn has_enough(&self, what: &str, count: u64, least: u64) -> bool {
        let enough = self.calls < FULL || count >= least;
        if !enough {
            println!("TOO FEW {what}: {count}, a full run needs {least}");
        }
        enough
    }

    /// The seed, the sides, and how far the calls lead into the exhaustive lists.
    fn say_what_is_due(&self) {
        let core = if self.core.is_some() { "the core" } else { "no core" };
        println!("comparing {} calls of seed {}: reference, model, {core}", self.calls, self.seed);
        if !self.exhaustive {
            println!("no exhaustive lists");
            return;
        }
        let Exhaustive { lists, calls } = Exhaustive::with_seed(self.seed);
        let reach = if self.calls < calls { "only the first of them are run" } else { "all are run" };
        println!("the {lists} exhaustive lists, with random ones between, need {calls} calls: {reach}");
    }

    fn show(&self, list: &List) {
        eprintln!("looking for the shortest list that shows it ..");
        match shrink(list, &mut Judge::new(self.core, true)) {
            Some((list, difference)) => {
                print!("shortest list that shows it, {difference}\n{list}");
            }
            None => print!("a fresh run of the list doesn't show it:\n{list}"),
        }
    }
}

/// The exhaustive lists of a run.
#[derive(Debug, Clone, Copy, PartialEq, Eq)]
pub struct Exhaustive {
    pub lists: u64,
    /// The calls of the run to the end of the last one, those of the random lists between included.
    pub calls: u64,
}

impl Exhaustive {
    pub fn with_seed(seed: u64) -> Self {
        let mut turns = Turns::new(seed, true);
        let mut calls = 0;
        while turns.exhaustive.peek().is_some() {
            calls += turns.next_list().steps.len() as u64;
        }
        Self { lists: turns.exhaustive_done, calls }
    }
}

/// The lists of a run: exhaustive and random ones in turn, random ones alone after the last
/// exhaustive one.
struct Turns {
    exhaustive: Peekable<Box<dyn Iterator<Item = List>>>,
    exhaustive_done: u64,
    seed: u64,
    turn: u64,
}

impl Turns {
    fn new(seed: u64, with_exhaustive: bool) -> Self {
        let exhaustive: Box<dyn Iterator<Item = List>> =
            if with_exhaustive { Box::new(exhaustive::lists()) } else { Box::new(std::iter::empty()) };
        Self { exhaustive: exhaustive.peekable(), exhaustive_done: 0, seed, turn: 0 }
    }

    fn next_list(&mut self) -> List {
        let turn = self.turn;
        self.turn += 1;
        if let Some(list) = self.exhaustive.next_if(|_| turn % 2 == 0) {
            self.exhaustive_done += 1;
            return list;
        }
        random::list(list_seed(self.seed, turn))
    }
}

/// The seed of the list of this number in a run.
pub fn list_seed(seed: u64, number: u64) -> u64 {
    (seed << 32).wrapping_add(number)
}

#[cfg(test)]
mod tests {
    use super::*;

    #[test]
    fn only_a_full_run_needs_flushes_with_a_pair_in_the_gap() {
        let enough =
            |calls, count| Run { calls, seed: 1, core: None, exhaustive: true }.has_enough_gap_flushes(count);
        assert!(!enough(FULL, GAP_FLUSHES - 1));
        assert!(enough(FULL, GAP_FLUSHES));
        assert!(enough(FULL - 1, 0));
    }

    #[test]
    fn only_a_full_run_with_the_core_needs_lists_that_stop() {
        let enough = |calls, core, count| {
            Run { calls, seed: 1, core, exhaustive: true }.has_enough_that_stop(count, 1_001)
        };
        let core: Option<Answering> = Some(|_, _| None);
        assert!(!enough(FULL, core, 400));
        assert!(enough(FULL, core, 401));
        assert!(enough(FULL - 1, core, 0));
        assert!(enough(FULL, None, 0));
    }

    #[test]
    fn only_a_full_run_with_the_core_needs_bitmaps_painted_by_bytes() {
        let enough =
            |calls, core, count| Run { calls, seed: 1, core, exhaustive: true }.has_enough_by_bytes(count);
        let core: Option<Answering> = Some(|_, _| None);
        assert!(!enough(FULL, core, PAINTED_BY_BYTES - 1));
        assert!(enough(FULL, core, PAINTED_BY_BYTES));
        assert!(enough(FULL - 1, core, 0));
        assert!(enough(FULL, None, 0));
    }
}
