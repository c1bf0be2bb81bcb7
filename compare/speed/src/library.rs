//! A library of the core, and how its record lies: today's, or one of an earlier landing.

use crate::plain::store_rect;
use calls::layout::{self, *};
use calls::{Answer, Buffers, Call, DeviceCall, DeviceLent, Lent};
use driver::core_side::{Answering, DeviceAnswering};

#[derive(Clone, Copy)]
pub struct Library {
    pub answering: Answering,
    pub device: DeviceAnswering,
    pub layout: Layout,
}

impl Library {
    pub fn today(answering: Answering, device: DeviceAnswering) -> Self {
        Self { answering, device, layout: Layout::TODAY }
    }

    #[inline]
    pub fn answer(&self, call: &Call, lent: Lent) -> Option<Answer> {
        (self.answering)(call, lent)
    }

    #[inline]
    pub fn device_answer(&self, call: &DeviceCall, lent: DeviceLent) -> Option<Answer> {
        (self.device)(call, lent)
    }

    /// Bytes for this library: today's, with the record as it knows it.
    pub fn own(&self, mut buffers: Buffers) -> Buffers {
        buffers.record = self.layout.record(&buffers.record);
        buffers
    }
}

/// Where the fields of a record lie that keeps what is owed by so many bands, 1 or as many as today. The head
/// lies alike in all.
#[derive(Debug, Clone, Copy, PartialEq, Eq)]
pub struct Layout {
    pub bands: usize,
}

const EMPTY: [u16; 4] = [0; 4];
/// Keys and flags follow panel 0's part; they are as long in all.
const HEAD: usize = DIRTY + RECT;
const KEYS_AND_FLAGS: usize = FLAGS_END - KEYS;

impl Layout {
    pub const TODAY: Self = Self { bands: BANDS };

    fn part_len(self) -> usize {
        PART - (BANDS - self.bands) * RECT
    }

    fn keys(self) -> usize {
        HEAD + self.part_len()
    }

    fn part(self, panel: usize) -> usize {
        let others = self.keys() + KEYS_AND_FLAGS;
        if panel == 0 { HEAD } else { others + (panel - 1) * self.part_len() }
    }

    /// The place of the rectangle that holds what is owed of one of today's bands.
    pub fn owed(self, panel: usize, band: usize) -> usize {
        self.part(panel) + band * self.bands / BANDS * RECT
    }

    pub fn in_hand(self, panel: usize) -> usize {
        self.part(panel) + self.bands * RECT
    }

    fn lines_sent(self, panel: usize) -> usize {
        self.in_hand(panel) + RECT
    }

    fn edge(self) -> usize {
        self.part(PANELS - 1) + self.part_len()
    }

    /// Dirty, and all that is owed to each panel.
    pub fn marks(self) -> Vec<usize> {
        let owed = (0..PANELS).flat_map(|panel| (0..BANDS).map(move |band| self.owed(panel, band)));
        let mut places: Vec<usize> = [DIRTY].into_iter().chain(owed).collect();
        places.dedup();
        places
    }

    /// Today's record as it lies here: bands that have one rectangle together are joined.
    pub fn record(self, today: &[u8]) -> Vec<u8> {
        let mut record = vec![0; self.edge() + 1];
        record[..HEAD].copy_from_slice(&today[..HEAD]);
        record[self.keys()..][..KEYS_AND_FLAGS].copy_from_slice(&today[KEYS..FLAGS_END]);
        record[self.edge()] = today[EDGE];
        for panel in 0..PANELS {
            for band in 0..BANDS {
                let place = self.owed(panel, band);
                let joined = join(four(&record, place), four(today, layout::owed(panel, band)));
                store_rect(&mut record, place, joined);
            }
            let rest = layout::in_hand(panel)..part(panel).end;
            record[self.in_hand(panel)..][..rest.len()].copy_from_slice(&today[rest]);
        }
        record
    }

    /// What a record says in any layout.
    pub fn said(self, record: &[u8]) -> Said {
        let keys_and_flags = &record[self.keys()..][..KEYS_AND_FLAGS];
        Said {
            fields: [&record[..HEAD], keys_and_flags, &record[self.edge()..]].concat(),
            to_send: [0, 1, 2, 3].map(|panel| self.to_send(record, panel)),
            lines_sent: [0, 1, 2, 3].map(|panel| double_word(record, self.lines_sent(panel))),
        }
    }

    fn to_send(self, record: &[u8], panel: usize) -> [u16; 4] {
        let owed = (0..BANDS).map(|band| four(record, self.owed(panel, band)));
        owed.fold(four(record, self.in_hand(panel)), join)
    }
}

/// The fields that lie alike but for their places, and what is left of the others: for each panel one rectangle
/// around all that is owed or in hand, and its count.
#[derive(Debug, PartialEq, Eq)]
pub struct Said {
    pub fields: Vec<u8>,
    pub to_send: [[u16; 4]; PANELS],
    pub lines_sent: [u32; PANELS],
}

fn join(one: [u16; 4], other: [u16; 4]) -> [u16; 4] {
    match (one, other) {
        (EMPTY, rect) | (rect, EMPTY) => rect,
        (a, b) => [a[0].min(b[0]), a[1].min(b[1]), a[2].max(b[2]), a[3].max(b[3])],
    }
}

#[cfg(test)]
mod tests {
    use super::*;
    use driver::random::Random;

    #[test]
    fn today() {
        let today = Layout::TODAY;
        assert_eq!((today.keys(), today.edge(), today.edge() + 1), (KEYS, EDGE, RECORD));
        for panel in 0..PANELS {
            assert_eq!((0..BANDS).map(|band| today.owed(panel, band)).collect::<Vec<_>>(), {
                (0..BANDS).map(|band| layout::owed(panel, band)).collect::<Vec<_>>()
            });
            assert_eq!(today.in_hand(panel), layout::in_hand(panel));
            assert_eq!(today.lines_sent(panel), layout::lines_sent(panel));
        }
        let record = Random::new(1).valid_record(1);
        assert_eq!(today.record(&record), record);
        assert_eq!(today.marks().len(), 1 + PANELS * BANDS);
    }

    #[test]
    fn with_one_band() {
        let one = Layout { bands: 1 };
        assert_eq!((one.keys(), one.edge()), (38, 230));
        assert_eq!([0, 1, 2, 3].map(|panel| one.owed(panel, 4)), [18, 170, 190, 210]);
        assert_eq!([0, 1, 2, 3].map(|panel| one.in_hand(panel)), [26, 178, 198, 218]);
        assert_eq!([0, 1, 2, 3].map(|panel| one.lines_sent(panel)), [34, 186, 206, 226]);
        assert_eq!(one.marks(), [DIRTY, 18, 170, 190, 210]);
    }

    #[test]
    fn every_layout_says_the_same() {
        let mut random = Random::new(1);
        for _ in 0..100 {
            let record = random.valid_record(1);
            let one = Layout { bands: 1 };
            assert_eq!(one.said(&one.record(&record)), Layout::TODAY.said(&record));
        }
    }
}
