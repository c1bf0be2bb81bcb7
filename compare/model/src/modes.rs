//! The listed modes, versions and flags; others are VALUE (or STATE in the record).

use calls::Refusal;

#[derive(Debug, Clone, Copy, PartialEq, Eq)]
pub enum DrawMode {
    Clear,
    Or,
    Xor,
    Unknown,
}

#[derive(Debug, Clone, Copy, PartialEq, Eq)]
pub enum PaintMode {
    Copy,
    Or,
    Not,
    And,
    Xor,
}

#[derive(Debug, Clone, Copy, PartialEq, Eq)]
pub enum ScreenMode {
    Text,
    Graph,
}

#[derive(Debug, Clone, Copy, PartialEq, Eq)]
pub enum PrintMode {
    Normal,
    Inverse,
    Flash,
}

#[derive(Debug, Clone, Copy, PartialEq, Eq)]
pub enum Cursor {
    None,
    Half,
    Full,
}

#[derive(Debug, Clone, Copy, PartialEq, Eq)]
pub enum Version {
    V1,
    V2,
}

/// What a horizontal line does with what lies beyond the glass.
#[derive(Debug, Clone, Copy, PartialEq, Eq)]
pub enum Edge {
    Clamp,
    Stop,
}

fn listed<T: Copy>(list: &[T], number: u8) -> Option<T> {
    list.get(number as usize).copied()
}

pub fn draw_mode(number: u8) -> Result<DrawMode, Refusal> {
    use DrawMode::*;
    listed(&[Clear, Or, Xor, Unknown], number).ok_or(Refusal::Value)
}

pub fn paint_mode(number: u8) -> Result<PaintMode, Refusal> {
    use PaintMode::*;
    listed(&[Copy, Or, Not, And, Xor], number).ok_or(Refusal::Value)
}

pub fn fill_flag(number: u8) -> Result<bool, Refusal> {
    listed(&[false, true], number).ok_or(Refusal::Value)
}

pub fn screen_mode(number: u8) -> Option<ScreenMode> {
    listed(&[ScreenMode::Text, ScreenMode::Graph], number)
}

pub fn print_mode(number: u8) -> Option<PrintMode> {
    listed(&[PrintMode::Normal, PrintMode::Inverse, PrintMode::Flash], number)
}

pub fn cursor(number: u8) -> Option<Cursor> {
    listed(&[Cursor::None, Cursor::Half, Cursor::Full], number)
}

pub fn version(number: u8) -> Option<Version> {
    listed(&[Version::V1, Version::V2], number)
}

pub fn edge(number: u8) -> Option<Edge> {
    listed(&[Edge::Clamp, Edge::Stop], number)
}
