//! What the exhaustive lists show of the edge flag: drawings over the edges with both flags, every number
//! that open can be told and the record can hold, and that other calls leave it.

use calls::Call;
use calls::layout::*;
use driver::exhaustive;
use driver::list::{Lending, List};
use std::collections::HashSet;

/// What lists with each flag draw, each drawing with its own mark.
fn drawings() -> [HashSet<String>; 2] {
    let mut found = [HashSet::new(), HashSet::new()];
    for list in exhaustive::edges().filter(|list| list.start.record.is_some()) {
        let edge = list.edge() as usize;
        let unmarked = list.steps.into_iter().filter(|step| step.lending == Lending::Unmarked);
        found[edge].extend(unmarked.map(|step| format!("{:?}", step.call)));
    }
    found
}

fn assert_with_both(drawings: &[HashSet<String>; 2], call: Call) {
    let name = format!("{call:?}");
    assert!(drawings.iter().all(|with_flag| with_flag.contains(&name)), "{name}");
}

#[test]
fn lines_and_boxes_and_discs_over_the_edges_with_both_flags() {
    let drawings = drawings();
    for mode in 0..4 {
        for x1 in [0, 7, 8].into_iter().chain(151..=168).chain([255]) {
            for (x2, y) in [0, 7, 8, 151, 158, 159, 160, 161, 168, 255]
                .into_iter()
                .flat_map(|x2| [0, 78, 79, 80, 81, 255].map(|y| (x2, y)))
            {
                assert_with_both(&drawings, Call::DrawLine { x1, y1: y, x2, y2: y, mode });
            }
        }
        for fill in [0, 1] {
            for (x1, y1, x2, y2) in
                [(158, 78, 160, 80), (161, 81, 159, 79), (0, 79, 7, 80), (159, 0, 160, 1), (0, 0, 255, 255)]
            {
                assert_with_both(&drawings, Call::DrawBox { x1, y1, x2, y2, fill, mode });
            }
        }
        for (x, y) in [(0, 0), (159, 0), (0, 79), (159, 79), (160, 80), (255, 255)] {
            for (rx, ry) in [(1, 1), (5, 0), (0, 5), (127, 2), (127, 127)] {
                assert_with_both(&drawings, Call::DrawEllipse { x, y, rx, ry, fill: 1, mode });
            }
        }
    }
}

/// With either flag in the record and with the windows right and wrong.
#[test]
fn every_number_is_told_to_open() {
    let lists = exhaustive::lists().filter(|list| list.start.record.is_some());
    let told: HashSet<(u8, u8, bool)> = lists
        .flat_map(|list| {
            let edge = list.edge();
            list.steps.into_iter().filter_map(move |step| match step.call {
                Call::Open { graphics_base: 4096, text_base, edge: told, .. } => {
                    Some((edge, told, text_base == 8192))
                }
                _ => None,
            })
        })
        .collect();
    for edge in [0, 1] {
        for (told_edge, fits) in (0..=255).flat_map(|told| [(told, false), (told, true)]) {
            assert!(told.contains(&(edge, told_edge, fits)), "{edge} {told_edge} {fits}");
        }
    }
}

/// For each call by itself.
#[test]
fn every_number_stands_in_the_record() {
    let mut met: HashSet<(usize, u8)> = HashSet::new();
    for step in exhaustive::lists().flat_map(|list| list.steps) {
        if let Lending::Other(other) = step.lending {
            let flags = other.record_bytes.into_iter().filter(|(place, _)| *place == EDGE);
            met.extend(flags.map(|(_, flag)| (step.call.number(), flag)));
        }
    }
    for number in 0..Call::NAMES.len() {
        let missing = (0..=255).filter(|flag| !met.contains(&(number, *flag))).count();
        assert_eq!(missing, 0, "{}", Call::NAMES[number]);
    }
}

#[test]
fn half_of_the_lists_have_flag_1() {
    let flags: Vec<u8> = exhaustive::lists().map(|list: List| list.edge()).collect();
    let stop = flags.iter().filter(|flag| **flag == 1).count();
    assert!(stop.abs_diff(flags.len() - stop) < 20, "{stop} of {}", flags.len());
}

/// A reset with either flag, and then a drawing that shows the flag.
#[test]
fn resets_with_both_flags() {
    let shown = |list: &List| {
        let calls: Vec<&Call> = list.steps.iter().map(|step| &step.call).collect();
        calls
            .windows(2)
            .any(|two| *two[0] == Call::Reset && matches!(two[1], Call::DrawLine { y1: 80.., .. }))
    };
    let flags: HashSet<u8> = exhaustive::edges().filter(shown).map(|list| list.edge()).collect();
    assert_eq!(flags, HashSet::from([0, 1]));
}
