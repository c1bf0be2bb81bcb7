//! Random lists: a start, a theme that says which calls come how often, and the calls.

use super::Random;
use super::edges::Edges;
use super::numbers::{Paces, Windows};
use super::texts::Pairs;
use crate::list::{Lending, List, Start, Step};
use calls::Call;
use calls::layout::{GRAPHICS_BASE, PANELS, TEXT_BASE, word};

/// How often each call comes, by theme, in the order of `Call::NAMES`.
type Weights = [u8; Call::NAMES.len()];

const EVEN: Weights = [1, 1, 4, 4, 2, 2, 2, 4, 3, 4, 4, 1, 2, 3, 3, 4, 4, 1, 3, 4, 3, 6, 4, 20, 5];
const DRAWING: Weights = [0, 0, 6, 12, 4, 4, 4, 4, 4, 0, 1, 0, 0, 0, 0, 0, 0, 0, 0, 1, 1, 3, 3, 16, 8];
const TEXT: Weights = [0, 0, 0, 1, 0, 0, 0, 0, 1, 10, 5, 1, 4, 2, 2, 6, 6, 1, 4, 5, 3, 6, 2, 16, 1];
const SMALL: Weights = [1, 1, 8, 0, 0, 0, 0, 8, 0, 0, 3, 1, 0, 6, 6, 6, 6, 1, 6, 4, 4, 10, 6, 50, 0];
const CLEARING: Weights = [5, 8, 4, 4, 2, 2, 2, 2, 2, 4, 2, 8, 4, 0, 0, 2, 2, 8, 3, 3, 6, 4, 2, 20, 3];
/// Mostly sends, so that panels come level within the list.
const POLLING: Weights = [0, 1, 6, 2, 1, 0, 0, 0, 1, 0, 1, 0, 0, 0, 0, 0, 0, 0, 0, 2, 0, 4, 1, 180, 3];

/// What a list keeps to.
struct Theme {
    weights: Weights,
    paces: Paces,
    pairs: Pairs,
    edges: Edges,
}

/// The list of this seed.
pub fn list(seed: u64) -> List {
    let mut random = Random::new(seed);
    let edges = Edges::of_list(seed);
    let (mut start, mut windows, mut steps) = start(&mut random, edges.first);
    let weights = random.pick(&[EVEN, DRAWING, TEXT, SMALL, CLEARING, POLLING]);
    let mut theme = Theme { weights, paces: random.paces(), pairs: random.pairs(), edges };
    let len = match random.below(4) {
        0 => random.below(8),
        1 => random.below(60),
        _ => random.below(300),
    };
    for _ in 0..len {
        let call = random.themed_call(&mut theme, windows);
        let lending = random.lending(start.record.is_some());
        if let Call::Open { graphics_base, text_base, .. } = call {
            windows = Windows { graphics_base, text_base };
        }
        steps.push(Step { call, lending });
    }
    if random.one_in(8) {
        start.panels = random.below(PANELS);
    }
    List { start, steps }
}

/// Mostly an accepted open over any bytes; sometimes any valid record. Either with this edge flag.
fn start(random: &mut Random, edge: u8) -> (Start, Windows, Vec<Step>) {
    let seed = if random.one_in(4) { 0 } else { random.number() };
    if random.one_in(3) {
        let record = random.valid_record(edge);
        let windows =
            Windows { graphics_base: word(&record, GRAPHICS_BASE), text_base: word(&record, TEXT_BASE) };
        return (Start { record: Some(record), seed, panels: PANELS }, windows, vec![]);
    }
    let open = random.accepted_open(edge);
    let Call::Open { graphics_base, text_base, .. } = open else { unreachable!() };
    (Start::unopened(seed), Windows { graphics_base, text_base }, vec![open.into()])
}

impl Random {
    fn lending(&mut self, from_record: bool) -> Lending {
        match self.below(32) {
            0 | 1 => Lending::Other(self.other()),
            2..12 if from_record => Lending::Unmarked,
            _ => Lending::Own,
        }
    }

    fn themed_call(&mut self, theme: &mut Theme, windows: Windows) -> Call {
        let number = self.weighted(&theme.weights);
        match Call::NAMES[number] {
            "open" => self.open(theme.edges.next_open()),
            "print" => Call::Print { text: self.text(theme.pairs) },
            "flush" => Call::Flush { fonts: self.fonts(theme.pairs) },
            "send" => Call::Send { number: self.panel_number(&theme.paces) },
            _ => self.call(number, windows),
        }
    }
}
