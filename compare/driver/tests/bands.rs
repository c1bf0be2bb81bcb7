//! What goes to a panel with one band and with five: the table of the README, and that model and core send
//! what is reckoned. And what the exhaustive lists show of the bands.

use calls::Call;
use calls::layout::*;
use driver::bands::{Sent, cases, table};
use driver::core_side::{self, Answering};
use driver::exhaustive;
use driver::list::{Lending, List};
use std::collections::HashSet;
use std::fs;

const MODEL: Answering = |call, lent| Some(model::answer(call, lent));

fn sent(lines: u32, bytes: u32) -> Sent {
    Sent { lines, bytes }
}

#[test]
fn a_cursor_and_a_clock_need_32_lines_instead_of_80() {
    let cases = cases();
    let [first, second, ..] = &cases[..] else { panic!("two cases") };
    assert_eq!((first.reckoned::<1>(), first.reckoned::<5>()), (sent(80, 1600), sent(32, 16 + 128)));
    assert_eq!((second.reckoned::<1>(), second.reckoned::<5>()), (sent(80, 640), sent(32, 16 + 128)));
}

/// A mark over the whole screen is sent whole either way.
#[test]
fn five_bands_never_send_more() {
    for case in cases() {
        let (one, five) = (case.reckoned::<1>(), case.reckoned::<5>());
        assert!(five.lines <= one.lines && five.bytes <= one.bytes, "{}", case.name);
    }
}

#[test]
fn model_and_core_send_what_is_reckoned() {
    for side in [Some(MODEL), core_side::linked()].into_iter().flatten() {
        for case in cases() {
            assert_eq!(case.answered(side), case.reckoned::<BANDS>(), "{}", case.name);
        }
    }
}

#[test]
fn the_readme_has_the_table() {
    let readme =
        fs::read_to_string(concat!(env!("CARGO_MANIFEST_DIR"), "/../README.md")).expect("the README");
    for line in table().lines() {
        assert!(readme.contains(&format!("    {line}\n")), "{line}");
    }
}

/// A place of the record and the rectangle that a copy is lent there.
fn rects_lent() -> HashSet<(usize, [u16; 4])> {
    let steps = exhaustive::lists().flat_map(|list| list.steps);
    let others = steps.filter_map(|step| match step.lending {
        Lending::Other(other) if other.record_bytes.len() == RECT => Some(other.record_bytes),
        _ => None,
    });
    let rect = |bytes: &[(usize, u8)]| four(&bytes.iter().map(|(_, byte)| *byte).collect::<Vec<_>>(), 0);
    others.map(|bytes| (bytes[0].0, rect(&bytes))).collect()
}

#[test]
fn rectangles_around_every_band_of_every_panel() {
    let met = rects_lent();
    for (panel, band) in (0..PANELS).flat_map(|panel| (0..BANDS).map(move |band| (panel, band))) {
        let (top, bottom) = (16 * band as u16, 16 * band as u16 + 16);
        for rect in [
            [0, top, 160, bottom],
            [0, top, 160, bottom + 1],
            [0, top, 161, bottom],
            [159, bottom - 1, 160, bottom],
            [0, bottom, 160, bottom + 1],
            [0, top.wrapping_sub(1), 160, bottom],
            [0, top.wrapping_sub(1), 1, top],
            [0, 0, 160, 80],
        ] {
            assert!(met.contains(&(owed(panel, band), rect)), "{rect:?} in band {band} of panel {panel}");
        }
    }
}

/// The calls of the lists about bands, each with its own mark.
fn drawings(list: &List) -> Vec<&Call> {
    let unmarked = list.steps.iter().filter(|step| step.lending == Lending::Unmarked);
    unmarked.map(|step| &step.call).collect()
}

#[test]
fn boxes_from_every_edge_of_a_band_to_every_other() {
    let lists: Vec<List> = exhaustive::bands().collect();
    let lines: HashSet<(u8, u8, u8, u8)> = lists
        .iter()
        .flat_map(|list| drawings(list).into_iter().map(|call| (list.edge(), call)))
        .filter_map(|(edge, call)| match *call {
            Call::DrawBox { y1, y2, fill, .. } => Some((edge, fill, y1, y2)),
            _ => None,
        })
        .collect();
    for (edge, fill) in [(0, 0), (0, 1), (1, 0), (1, 1)] {
        for (top, bottom) in (0..5).flat_map(|one| (one..5).map(move |other| (16 * one, 16 * other + 15))) {
            for (y1, y2) in [(top, bottom), (top, bottom + 1), (top + 1, bottom), (top, bottom - 1)] {
                assert!(lines.contains(&(edge, fill, y1, y2)), "{edge} {fill} {y1} {y2}");
            }
        }
    }
}
