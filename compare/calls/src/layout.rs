//! Lengths and the places of the record's fields, as caption-sys has them, which of its bytes the reference has
//! too, and what its fields are called.

pub use caption_sys::layout::*;

use std::ops::Range;

/// The bytes that the reference has fields for, and those that it hasn't: the panels' parts and the edge
/// flag.
pub const IN_REFERENCE: [Range<usize>; 2] = [0..PANEL_0, KEYS..FLAGS_END];
pub const ADDED: [Range<usize>; 3] = [PANEL_0..KEYS, FLAGS_END..EDGE, EDGE..RECORD];

/// The panel whose part holds a record byte.
fn panel_at(place: usize) -> Option<usize> {
    (0..PANELS).find(|panel| part(*panel).contains(&place))
}

/// The field that a record byte belongs to.
pub fn field(place: usize) -> String {
    if let Some(panel) = panel_at(place) {
        let field = match (place - part(panel).start) / RECT {
            band @ 0..BANDS => format!("owed in band {band}"),
            BANDS => "in hand".to_string(),
            _ => "lines sent".to_string(),
        };
        return format!("{field} of panel {panel}");
    }
    let field = match place {
        GRAPHICS_BASE..TEXT_BASE => "graphics base",
        TEXT_BASE..ROW => "text base",
        ROW => "row",
        COLUMN => "column",
        SCREEN_MODE => "screen mode",
        PRINT_MODE => "print mode",
        CURSOR => "cursor",
        VERSION => "emoji version",
        DIRTY..PANEL_0 => "dirty",
        KEYS..FLAGS => "key addresses",
        FLAGS..FLAGS_END => "inverse flags",
        EDGE => "edge flag",
        _ => "past the record",
    };
    field.to_string()
}

#[test]
fn the_parts_of_the_record_follow_each_other() {
    let [first, second] = IN_REFERENCE;
    let [panel0, others, edge] = ADDED;
    assert_eq!([&panel0, &others], [&part(0), &(part(1).start..part(3).end)]);
    let in_order = [first, panel0, second, others, edge];
    assert_eq!((in_order[0].start, in_order[4].end), (0, RECORD));
    assert!(in_order.windows(2).all(|two| two[0].end == two[1].start));
}

#[test]
fn the_fields_of_a_part() {
    for panel in 0..PANELS {
        let names = [
            (owed(panel, 4) - 1, "owed in band 3"),
            (owed(panel, 4), "owed in band 4"),
            (in_hand(panel), "in hand"),
            (part(panel).end - 1, "lines sent"),
        ];
        for (place, name) in names {
            assert_eq!(field(place), format!("{name} of panel {panel}"));
        }
    }
}
