//! The sides of a row: who does its work, again and again.

use calls::Buffers;
use calls::layout::PANELS;
use reference::Reference;
use std::cell::RefCell;
use std::hint::black_box;
use std::mem::swap;
use std::rc::Rc;

pub trait Side {
    /// Do the work so many times.
    fn run(&mut self, turns: u64);
    /// What it has left, to see that two sides do the same. The reference keeps nothing of a record for
    /// panels.
    fn left(&self) -> Buffers;
}

/// A plain Rust function, or the core in its place, on a host's bytes.
pub struct OnBytes<Work> {
    pub buffers: Buffers,
    pub work: Work,
}

impl<Work: FnMut(&mut Buffers)> Side for OnBytes<Work> {
    fn run(&mut self, turns: u64) {
        for _ in 0..turns {
            (self.work)(black_box(&mut self.buffers));
        }
    }

    fn left(&self) -> Buffers {
        self.buffers.clone()
    }
}

/// The core on a host's bytes. Two of its libraries can share memory and panels, as where bytes lie changes
/// the time that they take; each has a record of its own.
pub struct ByCore {
    record: Rc<RefCell<Vec<u8>>>,
    /// Their record is the one above while work is done, and empty else.
    buffers: Rc<RefCell<Buffers>>,
    work: Box<Turns>,
}

/// Work that is done so many times.
type Turns = dyn Fn(&mut Buffers, u64);

impl ByCore {
    pub fn new(mut buffers: Buffers, work: impl Fn(&mut Buffers) + 'static) -> Self {
        let record = std::mem::take(&mut buffers.record);
        let (record, buffers) = (Rc::new(RefCell::new(record)), Rc::new(RefCell::new(buffers)));
        Self { record, buffers, work: again_and_again(work) }
    }

    /// Other work on the same bytes.
    pub fn beside(&self, work: impl Fn(&mut Buffers) + 'static) -> Self {
        Self { record: self.record.clone(), buffers: self.buffers.clone(), work: again_and_again(work) }
    }

    /// Work on memory and panels of another side from now on.
    pub fn share(&mut self, other: &ByCore) {
        self.buffers = other.buffers.clone();
    }
}

fn again_and_again(work: impl Fn(&mut Buffers) + 'static) -> Box<Turns> {
    Box::new(move |buffers, turns| {
        for _ in 0..turns {
            work(black_box(&mut *buffers));
        }
    })
}

impl Side for ByCore {
    fn run(&mut self, turns: u64) {
        let (mut record, mut buffers) = (self.record.borrow_mut(), self.buffers.borrow_mut());
        swap(&mut *record, &mut buffers.record);
        (self.work)(&mut buffers, turns);
        swap(&mut *record, &mut buffers.record);
    }

    fn left(&self) -> Buffers {
        Buffers { record: self.record.borrow().clone(), ..self.buffers.borrow().clone() }
    }
}

/// The reference, with panels for what it hasn't got; its work is handed the first of them.
pub struct OnReference<Work> {
    reference: Reference,
    panels: [Vec<u8>; PANELS],
    work: Work,
}

impl<Work> OnReference<Work> {
    /// From the state of these bytes.
    pub fn new(start: &Buffers, work: Work) -> Self {
        let mut reference = Reference::default();
        reference.load(&start.record, &start.memory);
        Self { reference, panels: Buffers::zero().panels, work }
    }
}

impl<Work: FnMut(&mut Reference, &mut [u8])> Side for OnReference<Work> {
    fn run(&mut self, turns: u64) {
        for _ in 0..turns {
            (self.work)(black_box(&mut self.reference), &mut self.panels[0]);
        }
    }

    fn left(&self) -> Buffers {
        let (record, memory) = (self.reference.record().to_vec(), self.reference.memory().to_vec());
        Buffers { record, memory, panels: self.panels.clone() }
    }
}
