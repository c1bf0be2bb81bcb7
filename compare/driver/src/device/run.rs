//! A run of device calls: exhaustive and random lists in turn, until a number of calls is reached or two sides
//! differ.

use super::judge::{Core, Judge};
use super::list::List;
use super::shrink::shrink;
use super::tally::Tally;
use super::{exhaustive, random};
use crate::progress::Progress;
use crate::run::{FULL, list_seed};

/// So often each cause of a refusal and each thing that accepted calls meet comes in a full run, at least.
const LEAST: u64 = 1_000;

pub struct Run {
    pub calls: u64,
    pub seed: u64,
    pub core: Option<Core>,
}

impl Run {
    /// Print what was compared; true if nothing differs and enough was compared.
    pub fn run(&self) -> bool {
        let core = if self.core.is_some() { "the core" } else { "no core" };
        println!("comparing {} device calls of seed {}: model, {core}", self.calls, self.seed);
        let mut turns = Turns::new(self.seed);
        let mut tally = Tally::default();
        let mut judge = Judge::new(self.core);
        let mut progress = Progress::new(self.calls, "device calls");
        while tally.calls() < self.calls {
            let list = turns.next_list();
            if let Err(difference) = judge.judge(&list, &mut tally) {
                progress.clear();
                println!("DIFFERENCE {difference}");
                self.show(&list);
                println!("{} device calls, 1 difference", tally.calls());
                return false;
            }
            progress.show(tally.calls());
        }
        progress.clear();
        tally.print(self.core.is_some());
        let done = turns.exhaustive_done;
        println!("{} lists; exhaustive ones: {done} of {}", tally.lists, exhaustive::lists().count());
        println!("{:.0} device calls a second", tally.calls() as f64 / progress.seconds());
        println!("{} device calls, 0 differences", tally.calls());
        self.has_enough(&tally)
    }

    /// Whether a full run has met everything often enough; what it has not is named.
    fn has_enough(&self, tally: &Tally) -> bool {
        let mut enough = true;
        for met in tally.all_met() {
            if self.calls >= FULL && met.count < LEAST {
                println!("TOO FEW {}: {}, a full run needs {LEAST}", met.what, met.count);
                enough = false;
            }
        }
        enough
    }

    fn show(&self, list: &List) {
        eprintln!("looking for the shortest list that shows it ..");
        match shrink(list, &mut Judge::new(self.core)) {
            Some((list, difference)) => print!("shortest list that shows it, {difference}\n{list}"),
            None => print!("a fresh run of the list doesn't show it:\n{list}"),
        }
    }
}

/// The lists of a run: exhaustive and random ones in turn, random ones alone after the last exhaustive one.
pub struct Turns {
    exhaustive: Box<dyn Iterator<Item = List>>,
    exhaustive_done: u64,
    seed: u64,
    turn: u64,
}

impl Turns {
    pub fn new(seed: u64) -> Self {
        Self { exhaustive: Box::new(exhaustive::lists()), exhaustive_done: 0, seed, turn: 0 }
    }

    pub fn next_list(&mut self) -> List {
        let turn = self.turn;
        self.turn += 1;
        if turn % 2 == 0 {
            if let Some(list) = self.exhaustive.next() {
                self.exhaustive_done += 1;
                return list;
            }
        }
        random::list(list_seed(self.seed, turn))
    }
}

#[test]
fn only_a_full_run_needs_everything() {
    let enough = |calls| Run { calls, seed: 1, core: None }.has_enough(&Tally::default());
    assert!(!enough(FULL));
    assert!(enough(FULL - 1));
}
