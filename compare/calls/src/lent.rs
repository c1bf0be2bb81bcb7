use crate::Call;
use crate::layout::{MEMORY, PANEL, PANELS, RECORD};

/// What a call is lent. A call doesn't look at what it doesn't take.
pub struct Lent<'a> {
    pub record: &'a mut [u8],
    pub memory: &'a mut [u8],
    pub panel: &'a mut [u8],
}

/// A host's own bytes, lent to one call after another.
#[derive(Debug, Clone, PartialEq, Eq)]
pub struct Buffers {
    pub record: Vec<u8>,
    pub memory: Vec<u8>,
    pub panels: [Vec<u8>; PANELS],
}

impl Buffers {
    pub fn zero() -> Self {
        let panels = std::array::from_fn(|_| vec![0; PANEL]);
        Self { record: vec![0; RECORD], memory: vec![0; MEMORY], panels }
    }

    /// A send is lent the panel that it names, and one of them where its number names none; any
    /// other call is lent no panel.
    #[inline]
    pub fn lend(&mut self, call: &Call) -> Lent<'_> {
        let panel = match call {
            Call::Send { number } => &mut self.panels[*number as usize % PANELS][..],
            _ => &mut [],
        };
        Lent { record: &mut self.record, memory: &mut self.memory, panel }
    }

    /// Become equal to other buffers, whose record and memory have the same lengths.
    pub fn follow(&mut self, other: &Buffers) {
        self.record.copy_from_slice(&other.record);
        self.memory.copy_from_slice(&other.memory);
        self.panels.clone_from(&other.panels);
    }
}
