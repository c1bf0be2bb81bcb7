//! The two painters on equal bytes answer alike and leave equal records and memories: in the model, and
//! in the core where it is linked and has both.

use calls::layout::*;
use calls::{Answer, Buffers, Painting};
use driver::core_side::{self, Answering};
use driver::exhaustive;
use driver::random::{Random, Windows};

const MODEL: Answering = |call, lent| Some(model::answer(call, lent));

/// The core, if it is linked and has the painter by bytes.
fn core() -> Option<Answering> {
    core_side::linked().filter(|_| core_side::has("paint_bitmap_by_bytes"))
}

/// A painting by both painters of one side, each from the same bytes.
struct Painters {
    side: Answering,
    by_pixels: Buffers,
    by_bytes: Buffers,
}

impl Painters {
    fn of(side: Answering) -> Self {
        Self { side, by_pixels: Buffers::zero(), by_bytes: Buffers::zero() }
    }

    /// What both answer.
    fn paint(&mut self, painting: Painting, start: &Buffers) -> Answer {
        let [by_pixels, by_bytes] =
            [(&mut self.by_pixels, painting.by_pixels()), (&mut self.by_bytes, painting.by_bytes())].map(
                |(buffers, call)| {
                    buffers.follow(start);
                    (self.side)(&call, buffers.lend(&call)).expect("both painters")
                },
            );
        assert_eq!(by_pixels, by_bytes, "{painting:?}");
        assert!(self.by_pixels.record == self.by_bytes.record, "{painting:?}: records");
        assert!(self.by_pixels.memory == self.by_bytes.memory, "{painting:?}: memories");
        by_pixels
    }
}

/// A valid record of these windows over bytes of a seed.
fn start(windows: Windows, seed: u64) -> Buffers {
    let mut buffers = Buffers::zero();
    Random::new(seed).fill(&mut buffers.memory);
    buffers.record[GRAPHICS_BASE..][..2].copy_from_slice(&windows.graphics_base.to_le_bytes());
    buffers.record[TEXT_BASE..][..2].copy_from_slice(&windows.text_base.to_le_bytes());
    buffers
}

/// All paintings of the exhaustive lists; then random ones.
fn assert_alike(side: Answering) {
    let mut painters = Painters::of(side);
    let bytes = start(Windows { graphics_base: 4096, text_base: 8192 }, 1);
    for painting in exhaustive::paintings() {
        painters.paint(painting, &bytes);
    }
    let mut random = Random::new(1);
    let mut accepted = 0;
    for seed in 1..3_000 {
        let windows = random.windows();
        let answer = painters.paint(random.painting(windows), &start(windows, seed));
        accepted += answer.accepted() as u32;
    }
    assert!(accepted > 2_000, "{accepted} of the random ones are accepted");
}

#[test]
fn in_the_model() {
    assert_alike(MODEL);
}

#[test]
fn in_the_core() {
    if let Some(core) = core() {
        assert_alike(core);
    }
}
