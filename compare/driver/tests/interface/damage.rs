//! The comparison of interfaces can fail: each damage to one of the texts is found.

use crate::{Texts, header, tokens};

type Text = fn(&mut Texts) -> &mut String;

const SOURCES: Text = |texts| &mut texts.sources;
const HEADER: Text = |texts| &mut texts.header;
const TABLE: Text = |texts| &mut texts.table;
const DECLARATIONS: Text = |texts| &mut texts.declarations;
const NAMES: Text = |texts| &mut texts.names;

/// A text, what stands there, what is put in its first place, and what the complaint names.
type Damage = (Text, &'static str, &'static str, &'static str);

const DAMAGES: [Damage; 59] = [
    // A parameter left out, or one too many.
    (SOURCES, "x : u8 , ", "", "caption_draw_"),
    (HEADER, "uint8_t x , ", "", "caption_draw_point"),
    (HEADER, "uint8_t x , ", "uint8_t x , uint8_t z , ", "caption_draw_point"),
    (TABLE, "| x, y, mode |", "| x, mode |", "caption_draw_point"),
    (TABLE, "keys0-7", "keys0-6", "caption_open"),
    (TABLE, "record, memory, const text", "record, memory", "caption_print"),
    (DECLARATIONS, "x : u8 , ", "", "caption_draw_point"),
    (SOURCES, "panel : & mut [ u8 ] , number : u8", "panel : & mut [ u8 ]", "caption_send"),
    (HEADER, "size_t panel_len , uint8_t number", "size_t panel_len", "caption_send"),
    (TABLE, "| record, const memory, panel | number |", "| record, const memory, panel | |", "caption_send"),
    (DECLARATIONS, "panel_len : usize , number : u8 , ", "panel_len : usize , ", "caption_send"),
    (HEADER, "size_t image_len , uint8_t number", "size_t image_len", "caption_drive_line"),
    (DECLARATIONS, "image : Out , image_len : usize , ", "", "caption_drive_line"),
    (DECLARATIONS, "register_number : u8 , value : u8", "register_number : u8", "caption_controller_write"),
    (SOURCES, "keys7 : u32 , edge : u8", "keys7 : u32", "caption_open"),
    (HEADER, "uint32_t keys7 , uint8_t edge", "uint32_t keys7", "caption_open"),
    (TABLE, "keys0-7 (u32), edge", "keys0-7 (u32)", "caption_open"),
    (DECLARATIONS, "keys7 : u32 , edge : u8", "keys7 : u32", "caption_open"),
    // A length left out, or of another kind.
    (HEADER, "size_t record_len , ", "", "record_len"),
    (HEADER, "size_t record_len", "uint32_t record_len", "record_len"),
    (DECLARATIONS, "record_len : usize , ", "", "record_len"),
    (DECLARATIONS, "record_len : usize", "record_len : u32", "record_len"),
    // Another kind of number.
    (SOURCES, "x : u8", "x : u16", "caption_draw_"),
    (HEADER, "uint8_t x", "uint16_t x", "caption_draw_point"),
    (HEADER, "int32_t x", "uint32_t x", "caption_check_point"),
    (TABLE, "y (i32)", "y", "caption_check_point"),
    (TABLE, "address (u16)", "address (u64)", "caption_paint_bitmap"),
    (DECLARATIONS, "x : i32", "x : u32", "caption_check_point"),
    (SOURCES, "panel : & mut [ u8 ] , number : u8", "panel : & mut [ u8 ] , number : u32", "caption_send"),
    (HEADER, "panel_len , uint8_t number", "panel_len , uint32_t number", "caption_send"),
    (DECLARATIONS, "panel_len : usize , number : u8", "panel_len : usize , number : u32", "caption_send"),
    (HEADER, "uint8_t value", "uint32_t value", "caption_controller_write"),
    (DECLARATIONS, "value : u8", "value : u32", "caption_controller_write"),
    (SOURCES, "keys7 : u32 , edge : u8", "keys7 : u32 , edge : u32", "caption_open"),
    (HEADER, "uint8_t edge", "uint32_t edge", "caption_open"),
    (TABLE, "keys0-7 (u32), edge", "keys0-7 (u32), edge (u32)", "caption_open"),
    (DECLARATIONS, "edge : u8", "edge : u32", "caption_open"),
    // Two parameters in each other's place.
    (HEADER, "uint32_t keys7 , uint8_t edge", "uint8_t edge , uint32_t keys7", "caption_open"),
    (HEADER, "uint8_t x , uint8_t y", "uint8_t y , uint8_t x", "caption_draw_point"),
    (
        DECLARATIONS,
        "register_number : u8 , value : u8",
        "value : u8 , register_number : u8",
        "caption_controller_write",
    ),
    (TABLE, "| x, y, mode |", "| y, x, mode |", "caption_draw_point"),
    (DECLARATIONS, "x : u8 , y : u8", "y : u8 , x : u8", "caption_draw_point"),
    // A slice that may be written, or may not.
    (SOURCES, "memory : & [ u8 ]", "memory : & mut [ u8 ]", "caption_"),
    (HEADER, "const uint8_t * record", "uint8_t * record", "caption_check_point"),
    (TABLE, "const text", "text", "caption_print"),
    (DECLARATIONS, "type In = * const u8", "type In = * mut u8", "caption_check_point"),
    (DECLARATIONS, "panel : In", "panel : Out", "caption_controller_read"),
    // Another name, one missing, one twice.
    (SOURCES, "fn caption_reset", "fn caption_restart", "caption_restart"),
    (HEADER, "caption_reset (", "caption_restart (", "caption_reset"),
    (HEADER, "caption_reset (", "caption_cls (", "caption_cls"),
    (TABLE, "caption_reset |", "caption_restart |", "caption_restart"),
    (DECLARATIONS, "fn caption_reset", "fn caption_restart", "caption_reset"),
    (NAMES, "reset\n", "", "caption_reset"),
    (NAMES, "drive_line\n", "", "caption_drive_line"),
    // A function that is not exported by its name.
    (SOURCES, "# [ unsafe ( no_mangle ) ]", "", "no_mangle"),
    // Another result.
    (
        SOURCES,
        "caption_get_row ( rec : & [ u8 ] ) - > Value",
        "caption_get_row ( rec : & [ u8 ] ) - > Area",
        "caption_get_row",
    ),
    (HEADER, "value ;", "value , more ;", "caption_check_point"),
    (TABLE, "| code, value |", "| code |", "caption_check_point"),
    (DECLARATIONS, "# [ repr ( C ) ]", "", "no struct of C"),
];

/// The texts with single spaces between their words and signs, where the table is as it is.
fn spaced() -> Texts {
    let texts = Texts::read();
    Texts {
        sources: tokens::tokens(&texts.sources).join(" "),
        header: header::tokens_of(&texts.header).join(" "),
        declarations: tokens::tokens(&texts.declarations).join(" "),
        ..texts
    }
}

#[test]
fn single_spaces_change_nothing() {
    assert_eq!(spaced().complaints(), Texts::read().complaints());
}

#[test]
fn every_damage_is_found() {
    let whole = spaced();
    if !whole.complaints().is_empty() {
        // The comparison itself fails, and tells why.
        return;
    }
    for (text, from, to, named) in DAMAGES {
        let mut texts = whole.clone();
        let damaged = text(&mut texts).replacen(from, to, 1);
        assert!(damaged != *text(&mut texts), "{from}: it is not there to be damaged");
        *text(&mut texts) = damaged;
        let complaints = texts.complaints();
        assert!(complaints.iter().any(|complaint| complaint.contains(named)), "{from}: {complaints:?}");
    }
}
