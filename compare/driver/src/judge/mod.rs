//! The judge: gives a list to reference, model and core, and says where they differ.

pub(crate) mod area;
mod demand3;
pub(crate) mod difference;
mod edge;
mod panel;
pub mod panics;
mod reckon;
mod sends;

pub use difference::Difference;
pub use reckon::Reckoner;

use crate::core_side::Answering;
use crate::list::{Lending, List, Other, Step};
use crate::tally::Tally;
use calls::layout::*;
use calls::{Answer, Buffers, Call, Lent, Refusal};
use difference::{compare_answers, compare_buffers, compare_bytes, compare_panels, compare_records};
use reference::{Reference, Told};

/// Memory is compared whole after this many calls, and at the end of a list; between that the
/// screen, the text and the poked byte are.
const WHOLE_EVERY: u32 = 64;

pub struct Judge {
    reference: Reference,
    own: Sides,
    /// Copies for calls that are lent other buffers.
    other: Sides,
    model: Modelling,
    core: Option<Answering>,
    reckoner: Reckoner,
    /// What each panel is due to show.
    shown: [Vec<u8>; PANELS],
    /// Compare memory whole after every call.
    thorough: bool,
    since_whole: u32,
}

/// The bytes that model and core are lent.
struct Sides {
    model: Buffers,
    core: Buffers,
}

impl Sides {
    fn new() -> Self {
        Self { model: Buffers::zero(), core: Buffers::zero() }
    }
}

type Judged<T> = Result<T, Difference>;

/// The model, or another one in its place.
pub type Modelling = fn(&Call, Lent) -> Answer;

impl Judge {
    pub fn new(core: Option<Answering>, thorough: bool) -> Self {
        Self::with_model(model::answer, core, thorough)
    }

    pub fn with_model(model: Modelling, core: Option<Answering>, thorough: bool) -> Self {
        Self {
            reference: Reference::default(),
            own: Sides::new(),
            other: Sides::new(),
            model,
            core,
            reckoner: Reckoner::default(),
            shown: Buffers::zero().panels,
            thorough,
            since_whole: 0,
        }
    }

    /// Run a list from its start to its end.
    pub fn judge(&mut self, list: &List, tally: &mut Tally) -> Judged<()> {
        self.start(list);
        for (place, step) in list.steps.iter().enumerate() {
            self.step(step, tally).map_err(|difference| difference.at(place))?;
        }
        tally.lists[list.edge() as usize] += 1;
        tally.fewer_panels += (list.start.panels < PANELS) as u64;
        self.end(list, tally).map_err(|difference| difference.at(list.steps.len()))
    }

    fn start(&mut self, list: &List) {
        list.start.fill(&mut self.own.model);
        self.own.core.follow(&self.own.model);
        self.shown.clone_from(&self.own.model.panels);
        self.reckoner = Reckoner::default();
        if let Some(record) = &list.start.record {
            self.reference.load(record, &self.own.model.memory);
            self.reckoner = Reckoner::of_record(record);
        }
    }

    fn end(&mut self, list: &List, tally: &mut Tally) -> Judged<()> {
        self.compare_memory_whole()?;
        if list.start.record.is_none() && !list.steps.is_empty() {
            self.demand3(list, tally)?;
        }
        Ok(())
    }

    fn step(&mut self, step: &Step, tally: &mut Tally) -> Judged<()> {
        let answer = match &step.lending {
            Lending::Own => self.own_step(&step.call, tally)?,
            Lending::Unmarked => {
                self.empty_marks();
                self.own_step(&step.call, tally)?
            }
            Lending::Other(other) => self.other_step(&step.call, other, tally)?,
        };
        tally.answered(&step.call, &answer);
        Ok(())
    }

    fn empty_marks(&mut self) {
        for side in [&mut self.own.model, &mut self.own.core] {
            side.record[DIRTY..DIRTY + RECT].fill(0);
            (0..PANELS).for_each(|panel| side.record[owed_part(panel)].fill(0));
        }
        self.reference.set_dirty([0; 4]);
        self.reckoner.empty_owed();
    }

    /// A call lent what the last accepted one left.
    fn own_step(&mut self, call: &Call, tally: &mut Tally) -> Judged<Answer> {
        let mut before = [0; RECORD];
        before.copy_from_slice(&self.own.model.record);
        let answer = (self.model)(call, self.own.model.lend(call));
        if answer.accepted() {
            self.accepted_step(call, &answer, &before, tally)?;
        } else {
            compare_records("before", &before, "model", &self.own.model.record)?;
            self.reference_on_refusal(call, &answer)?;
        }
        self.compare_shown()?;
        self.core_step(call, &answer, tally)?;
        self.compare_memory(call, &answer)?;
        Ok(answer)
    }

    /// An accepted call is held to the reckoning; a send to document 01, others to the reference. No open
    /// with another edge flag and no send to another panel is accepted.
    fn accepted_step(
        &mut self,
        call: &Call,
        answer: &Answer,
        before: &[u8; RECORD],
        tally: &mut Tally,
    ) -> Judged<()> {
        if let Call::Open { edge: edge @ 2.., .. } = *call {
            return Err(Difference::new(format!("an open with edge flag {edge} is accepted")));
        }
        let Call::Send { number } = *call else {
            self.reckon(call, before)?;
            return self.reference_step(call, answer, before, tally);
        };
        let panel = number as usize;
        if panel >= PANELS {
            return Err(Difference::new(format!("a send to panel {number} is accepted")));
        }
        let next = self.reckoner.next_line(panel);
        self.reckon(call, before)?;
        self.check_send(panel, next, answer, before)
    }

    fn reckon(&mut self, call: &Call, before: &[u8; RECORD]) -> Judged<()> {
        self.reckoner.take(call, before, &self.own.model.memory);
        self.reckoner.compare(&self.own.model.record)
    }

    /// The reference does an accepted call and stands as the model does. Where it cannot be asked
    /// about the call, it goes on from what the model left.
    fn reference_step(
        &mut self,
        call: &Call,
        answer: &Answer,
        before: &[u8; RECORD],
        tally: &mut Tally,
    ) -> Judged<()> {
        if !self.reference.can_follow(call) {
            tally.left_out(call, &self.reference.pairs_shown());
            self.reference.load(&self.own.model.record, &self.own.model.memory);
            return Ok(());
        }
        let panic_due = panics::due(call);
        match self.reference.call(call) {
            Told::Panicked if panic_due => {
                // Document 01 lets the port finish: it marks what the reference hadn't marked yet.
                let dirty = four(&self.reference.record(), DIRTY);
                difference::compare_dirty(dirty, four(before, DIRTY))?;
                self.reference.set_dirty(four(&self.own.model.record, DIRTY));
            }
            Told::Panicked => return Err(Difference::new("the reference panicked")),
            Told::Answer(_) if panic_due => return Err(Difference::new("the reference did not panic")),
            Told::Answer(numbers) => {
                compare_answers("reference", &Answer::done(numbers), "model", answer)?;
            }
        }
        if edge::stops(call, before) {
            tally.stopped += 1;
            self.stop_in_reference();
        } else {
            tally.reference_compared(call, panic_due);
        }
        let mut record = self.reference.record();
        for added in ADDED {
            record[added.clone()].copy_from_slice(&self.own.model.record[added]);
        }
        compare_records("reference", &record, "model", &self.own.model.record)
    }

    /// Where the reference can be asked at all about a refused call, it panics and does nothing.
    fn reference_on_refusal(&mut self, call: &Call, answer: &Answer) -> Judged<()> {
        if answer.code == Refusal::Source as u32 && self.reference.call(call) != Told::Panicked {
            return Err(Difference::new("SOURCE, and the reference did not panic"));
        }
        Ok(())
    }

    fn core_step(&mut self, call: &Call, answer: &Answer, tally: &mut Tally) -> Judged<()> {
        let Some(core) = self.core else { return Ok(()) };
        match core(call, self.own.core.lend(call)) {
            None => self.own.core.follow(&self.own.model),
            Some(given) => {
                tally.core_compared(call);
                compare_answers("model", answer, "core", &given)?;
                compare_records("model", &self.own.model.record, "core", &self.own.core.record)?;
                compare_panels("panel", "model", &self.own.model, "core", &self.own.core)?;
            }
        }
        Ok(())
    }

    /// A call lent a copy with other lengths or other record bytes.
    fn other_step(&mut self, call: &Call, other: &Other, tally: &mut Tally) -> Judged<Answer> {
        other.copy(&self.own.model, &mut self.other.model);
        let answer = (self.model)(call, self.other.model.lend(call));
        if let Some(core) = self.core {
            other.copy(&self.own.model, &mut self.other.core);
            if let Some(given) = core(call, self.other.core.lend(call)) {
                tally.core_compared(call);
                compare_answers("model", &answer, "core", &given)?;
                compare_buffers("model", &self.other.model, "core", &self.other.core)?;
            }
        }
        if !answer.accepted() {
            other.copy(&self.own.model, &mut self.other.core);
            compare_buffers("before", &self.other.core, "model", &self.other.model)?;
        }
        Ok(answer)
    }

    /// What a call can have changed of memory, and after a refusal all of it.
    fn compare_memory(&mut self, call: &Call, answer: &Answer) -> Judged<()> {
        self.since_whole += 1;
        if self.thorough || !answer.accepted() || self.since_whole >= WHOLE_EVERY {
            return self.compare_memory_whole();
        }
        let record = &self.own.model.record;
        let graphics_base = word(record, GRAPHICS_BASE) as usize;
        let text_base = word(record, TEXT_BASE) as usize;
        self.compare_part(graphics_base, SCREEN)?;
        self.compare_part(text_base, CELLS)?;
        if let Call::WriteByte { address, .. } = *call {
            self.compare_part(address as usize, 1)?;
        }
        Ok(())
    }

    fn compare_memory_whole(&mut self) -> Judged<()> {
        self.since_whole = 0;
        self.compare_part(0, MEMORY)
    }

    fn compare_part(&self, start: usize, len: usize) -> Judged<()> {
        let part = start..start + len;
        let model = &self.own.model.memory[part.clone()];
        let reference = &self.reference.memory()[part.clone()];
        compare_bytes("memory", start, "reference", reference, "model", model)?;
        if self.core.is_some() {
            compare_bytes("memory", start, "model", model, "core", &self.own.core.memory[part])?;
        }
        Ok(())
    }
}
