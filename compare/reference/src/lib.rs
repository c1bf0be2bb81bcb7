//! The reference `DefaultDevice`, built unchanged from the folder that CAPTION_REFERENCE names
//! (see build.rs), and driven with our calls. A panic is caught and told.

mod flush;
mod root;
mod screen;

// What the unchanged files expect at the root of their crate.
use root::{ByteString, HashMap, PrintMode, ScreenMode, util};

include!(concat!(env!("OUT_DIR"), "/src/modules.rs"));

pub use flush::in_gap;
pub use screen::{Reference, Told};
