//! An independent reading of document 01 and of the change requests: what every call answers and
//! leaves, on any lent bytes. Written from these and their readings, pixel by pixel and step by step,
//! to be compared with the reference where that has the call, and with the core on everything.

mod answer;
mod bitmap;
mod boxes;
mod canvas;
mod cursor;
pub mod device;
mod ellipse;
mod flush;
mod glyph;
mod lines;
mod modes;
mod pending;
mod record;
mod rect;
mod script;
mod send;
mod text;

pub use answer::answer;
pub use script::run_script;
