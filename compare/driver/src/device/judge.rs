//! The judge of device calls: gives a list to model and core and says where they differ; holds the model to a
//! second reading of change request 7, and every driven line to a direct send.

use super::laws;
use super::list::{Lending, List, Other, Step};
use super::sides::{Sides, beside_device, compare_copies, compare_lent, copy, copy_lent, lend};
use super::tally::Tally;
use crate::core_side::{Answering, DeviceAnswering};
use crate::judge::Difference;
use crate::judge::difference::{compare_answers, compare_bytes, compare_records};
use calls::layout::{MEMORY, PANEL};
use calls::register::{CLEAR, COMMAND, DATA};
use calls::{Answer, Buffers, Call, DeviceBuffers, DeviceCall, DeviceLent, Lent};

/// Memory is compared after so many calls of a list with a record, and at its end.
const MEMORY_EVERY: u32 = 256;

/// The model, or another one in its place.
pub type Modelling = fn(&DeviceCall, DeviceLent) -> Answer;

/// The core: its device calls, and its other ones.
#[derive(Clone, Copy)]
pub struct Core {
    pub device: DeviceAnswering,
    pub screen: Answering,
}

type Judged<T> = Result<T, Difference>;

pub struct Judge {
    model: Modelling,
    core: Option<Core>,
    own: Sides,
    /// Copies for calls that are lent other bytes.
    other: Sides,
    /// What a call was lent, but for memory; then what it is due to leave.
    due: DeviceBuffers,
    /// The side that is sent to directly, by the core if there is one. It has its own record and memory.
    direct: Buffers,
    /// A panel for sends that are made on the driven sides.
    beside: Vec<u8>,
    /// The panel whose sends were all driven here, from equal panels and with no byte written by hand.
    level: Option<u8>,
    since_memory: u32,
}

impl Judge {
    pub fn new(core: Option<Core>) -> Self {
        Self::with_model(model::device::answer, core)
    }

    pub fn with_model(model: Modelling, core: Option<Core>) -> Self {
        Self {
            model,
            core,
            own: Sides::new(),
            other: Sides::new(),
            due: DeviceBuffers::zero(),
            direct: Buffers::zero(),
            beside: vec![0; PANEL],
            level: None,
            since_memory: 0,
        }
    }

    /// Run a list from its start to its end.
    pub fn judge(&mut self, list: &List, tally: &mut Tally) -> Judged<()> {
        self.start(list);
        for (place, step) in list.steps.iter().enumerate() {
            self.step(step, tally).map_err(|difference| difference.at(place))?;
            self.since_memory += 1;
            if list.start.record.is_some() && self.since_memory >= MEMORY_EVERY {
                self.compare_memory().map_err(|difference| difference.at(place))?;
            }
        }
        tally.lists += 1;
        let has_memory = list.start.record.is_some();
        if has_memory { self.compare_memory().map_err(|found| found.at(list.steps.len())) } else { Ok(()) }
    }

    fn start(&mut self, list: &List) {
        list.start.fill(&mut self.own.model);
        copy(&self.own.model, &mut self.own.core);
        self.level = list.start.level;
        self.since_memory = 0;
        self.direct.panels.iter_mut().for_each(|panel| panel.copy_from_slice(&self.own.model.panel));
        if list.start.record.is_some() {
            self.own.core.memory.copy_from_slice(&self.own.model.memory);
            self.direct.record.copy_from_slice(&self.own.model.record);
            self.direct.memory.copy_from_slice(&self.own.model.memory);
        }
    }

    fn step(&mut self, step: &Step, tally: &mut Tally) -> Judged<()> {
        match step {
            Step::Device(call, Lending::Own) => self.own_step(call, tally),
            Step::Device(call, Lending::Other(other)) => self.other_step(call, other, tally),
            Step::Screen(call) => self.screen_step(call),
        }
    }

    /// A call lent what the last accepted one left.
    fn own_step(&mut self, call: &DeviceCall, tally: &mut Tally) -> Judged<()> {
        let Self { own, due, .. } = self;
        copy_lent(call, &own.model, due);
        let answer = (self.model)(call, own.model.lend());
        if let Some(core) = self.core {
            match (core.device)(call, own.core.lend()) {
                None => copy_lent(call, &own.model, &mut own.core),
                Some(given) => {
                    tally.core_compared(call);
                    compare_answers("model", &answer, "core", &given)?;
                    compare_lent(call, "model", &own.model, "core", &own.core)?;
                }
            }
        }
        if !answer.accepted() {
            tally.refused(call, model::device::causes(call, &own.model.lend()));
            return compare_lent(call, "before", due, "model", &own.model);
        }
        self.accepted_step(call, &answer)?;
        let Self { own, due, level, .. } = self;
        tally.accepted(call, &answer, due, &own.model.memory, level.is_some());
        laws::apply(call, &answer, &own.model.memory, due)?;
        compare_lent(call, "due", due, "model", &own.model)
    }

    /// What follows for panels that were level, and a driven line by a direct send.
    fn accepted_step(&mut self, call: &DeviceCall, answer: &Answer) -> Judged<()> {
        match *call {
            DeviceCall::Drive { number } => self.send_directly(number, answer),
            DeviceCall::Write { register, value } => {
                let by_hand = register as usize == DATA || (register as usize, value) == (COMMAND, CLEAR);
                if by_hand {
                    self.level = None;
                }
                Ok(())
            }
            DeviceCall::Read { .. } => Ok(()),
        }
    }

    /// The direct side sends to the same panel: the same answer and record, and from equal panels the same
    /// panel and image.
    fn send_directly(&mut self, number: u8, driven: &Answer) -> Judged<()> {
        let send = Call::Send { number };
        let direct = screen_call(self.core, &send, self.direct.lend(&send));
        compare_answers("direct send", &direct, "driven", driven)?;
        let Self { own: Sides { model, .. }, direct, due, .. } = self;
        compare_records("direct send", &direct.record, "driven", &model.record)?;
        due.record.copy_from_slice(&direct.record);
        if self.level != Some(number) {
            self.level = None;
            return Ok(());
        }
        let shown = &direct.panels[number as usize];
        compare_bytes("panel", 0, "direct send", shown, "driven", &model.panel)?;
        compare_bytes("image", 0, "direct send", shown, "driven", &model.image)
    }

    /// A call lent a copy with other lengths or other bytes.
    fn other_step(&mut self, call: &DeviceCall, other: &Other, tally: &mut Tally) -> Judged<()> {
        let Self { own, other: copies, due, .. } = self;
        other.copy(call, &own.model, due);
        other.copy(call, &own.model, &mut copies.model);
        let whole_memory = other.lengths.memory == MEMORY;
        let answer = (self.model)(call, lend(&mut copies.model, &mut own.model.memory, whole_memory));
        if let Some(core) = self.core {
            other.copy(call, &own.model, &mut copies.core);
            let given = (core.device)(call, lend(&mut copies.core, &mut own.core.memory, whole_memory));
            if let Some(given) = given {
                tally.core_compared(call);
                compare_answers("model", &answer, "core", &given)?;
                compare_copies(call, whole_memory, "model", &copies.model, "core", &copies.core)?;
            }
        }
        if answer.accepted() {
            return self.other_accepted(call, &answer, tally);
        }
        let lent = lend(&mut copies.model, &mut own.model.memory, whole_memory);
        tally.refused(call, model::device::causes(call, &lent));
        compare_copies(call, whole_memory, "before", due, "model", &copies.model)
    }

    /// It is held to a direct send on the same record, and to what is due.
    fn other_accepted(&mut self, call: &DeviceCall, answer: &Answer, tally: &mut Tally) -> Judged<()> {
        let Self { own, other: copies, due, direct, beside, .. } = self;
        if let DeviceCall::Drive { number } = *call {
            let lent = Lent { record: &mut due.record, memory: &mut direct.memory, panel: beside };
            let sent = screen_call(self.core, &Call::Send { number }, lent);
            compare_answers("direct send", &sent, "driven", answer)?;
        }
        tally.accepted(call, answer, due, &own.model.memory, false);
        laws::apply(call, answer, &own.model.memory, due)?;
        compare_lent(call, "due", due, "model", &copies.model)
    }

    /// Another call, on every side.
    fn screen_step(&mut self, call: &Call) -> Judged<()> {
        let Self { own, direct, beside, .. } = self;
        let answer = model::answer(call, beside_device(&mut own.model, beside));
        if let Some(core) = self.core {
            let given = (core.screen)(call, beside_device(&mut own.core, beside));
            compare_answers("model", &answer, "core", &given.expect("every other call"))?;
            compare_records("model", &own.model.record, "core", &own.core.record)?;
        }
        let by_direct = screen_call(self.core, call, direct.lend(call));
        compare_answers("driven", &answer, "direct", &by_direct)?;
        compare_records("driven", &own.model.record, "direct", &direct.record)?;
        if matches!(*call, Call::Send { number } if self.level == Some(number)) {
            self.level = None;
        }
        Ok(())
    }

    fn compare_memory(&mut self) -> Judged<()> {
        self.since_memory = 0;
        let model = &self.own.model.memory;
        compare_bytes("memory", 0, "driven", model, "direct", &self.direct.memory)?;
        if self.core.is_some() {
            compare_bytes("memory", 0, "model", model, "core", &self.own.core.memory)?;
        }
        Ok(())
    }
}

/// By the core if there is one, else by the model.
fn screen_call(core: Option<Core>, call: &Call, lent: Lent) -> Answer {
    match core {
        Some(core) => (core.screen)(call, lent).expect("every other call"),
        None => model::answer(call, lent),
    }
}
