//! The exhaustive lists show every pair that a text can hold: outside the gap compared with the
//! reference, in the gap both by the extra list and in hexadecimal. Both painters paint at every place
//! in a byte, over the edges of the glass, and from sources over the screen. Every screen byte is poked.

use calls::layout::*;
use calls::{Buffers, Call, FontsLent, Painting};
use driver::exhaustive;
use driver::list::{Lending, List};
use reference::{Reference, in_gap};
use std::collections::HashSet;

/// How a pair is met.
#[derive(Debug, Clone, Copy, PartialEq, Eq, Hash)]
enum Met {
    ByReference,
    ByExtraList,
    InHexadecimal,
}

/// A pair, the version and the screen mode in which it is shown, and how it is met.
type Sight = (u16, u8, u8, Met);

/// What a flush of the text, as it is, shows.
fn sights(reference: &Reference, fonts: &FontsLent) -> Vec<Sight> {
    let record = reference.record();
    let followed = reference.can_follow(&Call::Flush { fonts: fonts.clone() });
    let met = |code| {
        if followed {
            Met::ByReference
        } else if fonts.extra_entries().any(|(listed, _)| listed == code) {
            Met::ByExtraList
        } else {
            Met::InHexadecimal
        }
    };
    let pairs = reference.pairs_shown().into_iter();
    pairs.map(|code| (code, record[VERSION], record[SCREEN_MODE], met(code))).collect()
}

fn has_flush(list: &List) -> bool {
    list.steps.iter().any(|step| matches!(step.call, Call::Flush { .. }))
}

/// All that is shown in the lists that start with an open.
fn all_sights() -> HashSet<Sight> {
    let mut reference = Reference::default();
    let mut all = HashSet::new();
    let opened = exhaustive::lists().filter(|list| list.start.record.is_none() && has_flush(list));
    for step in opened.flat_map(|list| list.steps) {
        if let Call::Flush { fonts } = &step.call {
            all.extend(sights(&reference, fonts));
        }
        reference.call(&step.call);
    }
    all
}

/// Every pair in both versions and both screen modes.
fn sights_due() -> impl Iterator<Item = Sight> {
    (0x8000..=0xffff).flat_map(|code| {
        let mets: &[Met] =
            if in_gap(code) { &[Met::ByExtraList, Met::InHexadecimal] } else { &[Met::ByReference] };
        let modes = [(0, 0), (0, 1), (1, 0), (1, 1)].into_iter();
        modes.flat_map(move |(version, mode)| mets.iter().map(move |met| (code, version, mode, *met)))
    })
}

#[test]
fn every_pair_is_shown() {
    let all = all_sights();
    let missing: Vec<Sight> = sights_due().filter(|sight| !all.contains(sight)).collect();
    assert!(missing.is_empty(), "{} are missing, the first is {:x?}", missing.len(), missing[0]);
}

/// All that the lists tell one of the painters.
fn told(painter: fn(Painting) -> Call) -> HashSet<Painting> {
    let calls = exhaustive::lists().flat_map(|list| list.steps).map(|step| step.call);
    calls.filter_map(|call| Painting::of(&call).filter(|painting| painter(*painting) == call)).collect()
}

#[test]
fn both_painters_are_told_the_same() {
    let (by_pixels, by_bytes) = (told(Painting::by_pixels), told(Painting::by_bytes));
    let due: HashSet<Painting> = exhaustive::paintings().collect();
    assert!(due.is_subset(&by_pixels) && due.is_subset(&by_bytes));
}

#[test]
fn bitmaps_lie_at_every_place_in_a_byte_and_over_the_edges() {
    let all: HashSet<_> = exhaustive::paintings().map(|p| (p.x, p.width, p.height, p.mode)).collect();
    for mode in 0..5 {
        for x in (-8..8).chain(152..160) {
            (1..=17).for_each(|width| assert!(all.contains(&(x, width, 2, mode)), "{x} {width} {mode}"));
        }
        for (x, width) in (-9..=9).flat_map(|x| [159, 160, 161, 255].map(|width| (x, width))) {
            let heights = [80, 81, 255];
            assert!(heights.into_iter().all(|height| all.contains(&(x, width, height, mode))), "{x} {width}");
        }
    }
}

#[test]
fn sources_lie_over_the_screen_in_every_way() {
    let all: HashSet<_> = exhaustive::paintings().map(|p| (p.address as i32 - 4096, p.mode)).collect();
    for (mode, start) in (0..5).flat_map(|mode| [0, 1, 19, 20, 21, 100, 1600].map(|start| (mode, start))) {
        for beside in -1..=1 {
            let both = [start + beside, beside - start];
            assert!(both.into_iter().all(|start| all.contains(&(start, mode))), "{both:?} {mode}");
        }
    }
    // No order of lines is right here.
    let over_its_source = Painting { address: 4096 - 100, x: 0, y: 0, width: 255, height: 80, mode: 0 };
    assert!(exhaustive::paintings().any(|painting| painting == over_its_source));
}

/// Screens whose bytes are all taken: the first above all key addresses, an odd one, the last below 0xe000.
const TAKEN: [u16; 3] = [256, 4_097, 55_744];

/// Where the screen lies after a list's start and its first call.
fn graphics_base(list: &List) -> Option<u16> {
    match (&list.start.record, &list.steps[0].call) {
        (Some(record), _) => Some(word(record, GRAPHICS_BASE)),
        (None, Call::Open { graphics_base, .. }) => Some(*graphics_base),
        _ => None,
    }
}

/// The lists with each of these screens.
fn lists_at_taken() -> [Vec<List>; 3] {
    let mut found = [vec![], vec![], vec![]];
    for list in exhaustive::lists() {
        if let Some(place) = TAKEN.iter().position(|base| graphics_base(&list) == Some(*base)) {
            found[place].push(list);
        }
    }
    found
}

/// The screen's bytes, the one before and the one behind.
fn due_at(base: u16) -> Vec<u16> {
    (base - 1..=base + 1600).collect()
}

/// What the reference marks for this poke, on a record with nothing marked over zeros: on the screen the
/// byte's eight pixels, beside it nothing. A screen byte is there then.
fn assert_mark(reference: &mut Reference, record: &[u8], address: u16, byte: u8) {
    reference.load(record, &[0; MEMORY]);
    reference.call(&Call::WriteByte { address, byte });
    let dirty = four(&reference.record(), DIRTY);
    let place = address.wrapping_sub(word(record, GRAPHICS_BASE));
    if place < 1600 {
        let (left, top) = (8 * (place % 20), place / 20);
        assert_eq!(dirty, [left, top, left + 8, top + 1], "{address}");
        assert!(byte != 0 && reference.memory()[address as usize] == byte, "{address}");
    } else {
        assert_eq!(dirty, [0; 4], "{address}");
    }
}

#[test]
fn every_screen_byte_is_poked_and_its_mark_shows() {
    let mut reference = Reference::default();
    for (base, lists) in TAKEN.into_iter().zip(lists_at_taken()) {
        let mut poked = HashSet::new();
        for list in lists {
            let Some(record) = list.start.record else { continue };
            for step in list.steps {
                if let (Call::WriteByte { address, byte }, Lending::Unmarked) = (step.call, step.lending) {
                    assert_mark(&mut reference, &record, address, byte);
                    poked.insert(address);
                }
            }
        }
        let missing: Vec<u16> = due_at(base).into_iter().filter(|due| !poked.contains(due)).collect();
        assert!(missing.is_empty(), "screen at {base}: {missing:?} are not poked");
    }
}

/// The addresses that a list pokes from an open, whose panels are level at its first poke.
fn poked_from_level(list: &List) -> Vec<u16> {
    let mut buffers = Buffers::zero();
    let mut poked = vec![];
    for step in &list.steps {
        if let Call::WriteByte { address, .. } = step.call {
            let pending = (0..PANELS).flat_map(|panel| &buffers.record[part(panel).start..lines_sent(panel)]);
            assert!(!poked.is_empty() || pending.into_iter().all(|byte| *byte == 0), "{list}");
            poked.push(address);
        }
        model::answer(&step.call, buffers.lend(&step.call));
    }
    poked
}

#[test]
fn every_screen_byte_is_poked_from_level_panels() {
    for (base, lists) in TAKEN.into_iter().zip(lists_at_taken()) {
        let opened = lists.iter().filter(|list| list.start.record.is_none());
        assert_eq!(opened.flat_map(poked_from_level).collect::<Vec<_>>(), due_at(base));
    }
}
