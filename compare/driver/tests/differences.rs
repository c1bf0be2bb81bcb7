//! The smallest inputs of docs/DIFFERENCES.md: what the reference does, and what the model, and
//! so document 01 as it is read here, says.

use calls::layout::*;
use calls::{Answer, Buffers, Call, FontsLent, Painting};
use driver::random::Random;
use reference::{Reference, Told};

const OPEN: Call = Call::Open { graphics_base: 4096, text_base: 8192, version: 1, keys: [0; 8], edge: 0 };

/// Reference and model after the same open.
struct Both {
    reference: Reference,
    model: Buffers,
}

impl Both {
    fn opened() -> Self {
        let mut both = Self { reference: Reference::default(), model: Buffers::zero() };
        both.call(&OPEN);
        both
    }

    fn call(&mut self, call: &Call) -> (Told, Answer) {
        (self.reference.call(call), model::answer(call, self.model.lend(call)))
    }

    /// The reference panics, the model finishes with the same pixels and this dirty area.
    fn panics(call: Call, dirty: [u16; 4]) {
        let mut both = Self::opened();
        assert_eq!(both.call(&call), (Told::Panicked, Answer::done([0; 4])), "{call:?}");
        assert_eq!(both.reference.memory(), both.model.memory);
        assert_eq!(four(&both.reference.record(), DIRTY), [0; 4]);
        assert_eq!(four(&both.model.record, DIRTY), dirty);
    }
}

#[test]
fn the_reference_panics_and_the_port_finishes() {
    Both::panics(Call::DrawLine { x1: 254, y1: 0, x2: 255, y2: 1, mode: 1 }, [254, 0, 256, 2]);
    Both::panics(Call::DrawEllipse { x: 255, y: 1, rx: 0, ry: 1, fill: 0, mode: 1 }, [255, 0, 256, 80]);
    for (x, y) in [(i32::MAX, 0), (0, i32::MAX)] {
        let painting = Painting { address: 0, x, y, width: 1, height: 1, mode: 0 };
        Both::panics(painting.by_pixels(), [0; 4]);
        Both::panics(painting.by_bytes(), [0; 4]);
    }
}

#[test]
fn the_port_refuses() {
    let text_on_screen = Call::Open { graphics_base: 0, text_base: 1599, version: 0, keys: [0; 8], edge: 0 };
    let too_high = Call::Open { graphics_base: 63_936, text_base: 0, version: 0, keys: [0; 8], edge: 0 };
    let other_edge = Call::Open { graphics_base: 4096, text_base: 8192, version: 1, keys: [0; 8], edge: 2 };
    let no_fonts = FontsLent { ascii8: 0, ascii16: 0, gb: 0, emoji: 0, extra_list: vec![], extra_font: 0 };
    let one_byte_list = FontsLent::whole(vec![0]);
    let unlisted_mode = Painting { address: 0, x: 0, y: 0, width: 0, height: 0, mode: 5 };
    let past_memory = Painting { address: 65_535, x: 0, y: 0, width: 9, height: 1, mode: 0 };
    for (call, code) in [
        (Call::Flush { fonts: one_byte_list }, 1),
        (text_on_screen, 3),
        (too_high, 3),
        (other_edge, 4),
        (Call::SetRow { row: 5 }, 4),
        (Call::SetColumn { column: 20 }, 4),
        (Call::DrawPoint { x: 0, y: 0, mode: 4 }, 4),
        (unlisted_mode.by_pixels(), 4),
        (unlisted_mode.by_bytes(), 4),
        (Call::DrawCircle { x: 0, y: 0, r: 0, fill: 2, mode: 0 }, 4),
        (past_memory.by_pixels(), 5),
        (past_memory.by_bytes(), 5),
        (Call::DrawCircle { x: 0, y: 0, r: 128, fill: 0, mode: 0 }, 6),
        (Call::Flush { fonts: no_fonts }, 7),
    ] {
        let mut both = Both::opened();
        let print = Call::Print { text: b"a".to_vec() };
        model::answer(&print, both.model.lend(&print));
        let before = both.model.clone();
        assert_eq!(
            model::answer(&call, both.model.lend(&call)),
            Answer { code, numbers: [0; 4] },
            "{call:?}"
        );
        assert_eq!(both.model, before);
    }
}

#[test]
fn set_row_5_is_taken_by_the_reference() {
    let mut reference = Reference::default();
    reference.call(&OPEN);
    reference.call(&Call::SetRow { row: 5 });
    assert_eq!(reference.call(&Call::GetRow), Told::Answer([5, 0, 0, 0]));
    reference.call(&Call::BlinkCursor);
    assert_eq!(reference.memory()[4096 + SCREEN], 0xff, "it inverts bytes behind the screen");
}

#[test]
fn flush_past_the_last_cell() {
    let mut both = Both::opened();
    both.call(&Call::WriteByte { address: 8192 + 19, byte: 128 });
    both.call(&Call::WriteByte { address: 8192 + 100, byte: b'a' });
    let flush = Call::Flush { fonts: FontsLent::whole(vec![]) };
    assert_eq!(both.call(&flush), (Told::Answer([0; 4]), Answer::done([0; 4])));
    assert_eq!(both.reference.memory(), both.model.memory, "the reference was lent zeros there");
}

/// The bytes of the screen that differ, each with the pixels that do.
fn differing(both: &Both) -> Vec<(usize, u8)> {
    let [reference, model] =
        [both.reference.memory(), &both.model.memory].map(|memory| &memory[4096..][..SCREEN]);
    let bytes = reference.iter().zip(model).map(|(a, b)| a ^ b).enumerate();
    bytes.filter(|(_, pixels)| *pixels != 0).collect()
}

#[test]
fn lines_stop_at_the_edge_with_flag_1() {
    let smallest = Call::DrawLine { x1: 160, y1: 0, x2: 160, y2: 0, mode: 1 };
    let line = Call::DrawLine { x1: 200, y1: 90, x2: 210, y2: 90, mode: 1 };
    let bar = Call::DrawBox { x1: 0, y1: 78, x2: 7, y2: 80, fill: 1, mode: 2 };
    let outline = Call::DrawBox { x1: 150, y1: 5, x2: 170, y2: 9, fill: 0, mode: 2 };
    let disc = Call::DrawCircle { x: 20, y: 81, r: 1, fill: 1, mode: 1 };
    for (call, differing_with_1) in [
        (smallest, vec![(LINE - 1, 0x01)]),
        (line, vec![(SCREEN - 1, 0x01)]),
        (bar, vec![(79 * LINE, 0xff)]),
        (outline, vec![]),
        (disc, vec![(79 * LINE + 2, 0x1c)]),
    ] {
        for (edge, due) in [(0, vec![]), (1, differing_with_1)] {
            let mut both = Both::opened();
            let open = Call::Open { graphics_base: 4096, text_base: 8192, version: 1, keys: [0; 8], edge };
            both.call(&open);
            assert_eq!(both.call(&call), (Told::Answer([0; 4]), Answer::done([0; 4])), "{call:?}");
            assert_eq!(differing(&both), due, "{call:?} with {edge}");
            assert_eq!(four(&both.reference.record(), DIRTY), four(&both.model.record, DIRTY), "{call:?}");
        }
    }
}

/// Sixteen lines of two bytes.
type Glyph = [[u8; 2]; 16];

/// What the first two cells of the screen show.
fn first_cells(memory: &[u8]) -> Glyph {
    std::array::from_fn(|line| [0, 1].map(|column| memory[4096 + line * LINE + column]))
}

/// The glyph at this place of a font.
fn glyph(font: &[u8], place: usize) -> Glyph {
    std::array::from_fn(|line| [0, 1].map(|column| font[place + 2 * line + column]))
}

/// Hexadecimal codes: in each column one digit over another.
fn digits(columns: [&[u8; 2]; 2]) -> Glyph {
    let font = FontsLent::whole(vec![]).ascii8();
    std::array::from_fn(|line| columns.map(|digits| font[8 * digits[line / 8] as usize + line % 8]))
}

#[test]
fn gb_rows_10_to_15_are_not_gb() {
    let fonts = FontsLent::whole(vec![]);
    let gb = glyph(fonts.gb(), 32 * 94 * 3);
    let extra = glyph(fonts.extra_font(), 64);
    let hexadecimal = digits([b"AA", b"A1"]);
    assert!(gb != hexadecimal && gb != extra && hexadecimal != extra);

    let entry = vec![0xa1, 0xaa, 64, 0, 0, 0];
    for (text, extra_list, by_reference, by_model) in [
        ([0xa4, 0xa1], vec![], gb, gb),
        ([0xaa, 0xa1], vec![], gb, hexadecimal),
        ([0xaa, 0xa1], entry, gb, extra),
    ] {
        let mut both = Both::opened();
        both.call(&Call::Print { text: text.to_vec() });
        both.call(&Call::Flush { fonts: FontsLent::whole(extra_list) });
        assert_eq!(first_cells(both.reference.memory()), by_reference, "{text:x?}");
        assert_eq!(first_cells(&both.model.memory), by_model, "{text:x?}");
    }
}

/// Texts of bytes around the gap in any order: the reference is left out exactly where it differs.
#[test]
fn only_flushes_with_a_pair_in_the_gap_are_left_out() {
    let mut random = Random::new(1);
    let flush = Call::Flush { fonts: FontsLent::whole(vec![]) };
    let mut left_out = 0;
    for _ in 0..4_000 {
        let mut both = Both::opened();
        let bytes = [0, b'a', 128, 160, 161, 169, 170, 175, 176, 254, 255];
        let text = [(); CELLS].map(|()| if random.one_in(4) { random.pick(&bytes) } else { 0 });
        both.model.memory[8192..][..CELLS].copy_from_slice(&text);
        both.reference.load(&both.model.record, &both.model.memory);
        let followed = both.reference.can_follow(&flush);
        both.call(&flush);
        assert_eq!(followed, both.reference.memory() == both.model.memory, "{text:?}");
        left_out += !followed as u32;
    }
    assert!((1_000..3_000).contains(&left_out), "{left_out}");
}
