//! What each call does, through the safe crate: pictures, text, places, modes, marks, memory, panels, registers. Expected
//! pictures are those that document 01 knows, or follow from include/caption.h.

#[path = "../common/mod.rs"]
mod common;

mod bitmaps;
mod controllers;
mod drawing;
mod ellipses;
mod opening;
mod panels;
mod text;
