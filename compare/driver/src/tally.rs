//! What was done: for each call how often it was accepted and refused, and with which number.

use crate::core_side;
use calls::layout::PANELS;
use calls::{Answer, Call, FontsLent};
use reference::in_gap;

#[derive(Debug, Clone, Copy, Default)]
struct Row {
    accepted: u64,
    refused: u64,
    /// Accepted, and the reference was compared.
    by_reference: u64,
    /// Of these, the reference panicked where document 01 lets the port finish.
    panicked: u64,
    by_core: u64,
}

/// Accepted flushes that show a pair in the gap. The reference is not compared: it shows other
/// glyphs there.
#[derive(Debug, Clone, Copy, Default)]
pub struct GapFlushes {
    pub all: u64,
    /// Of these, such where the extra list has an entry for one of them.
    by_extra_list: u64,
    /// Of all, such where it has none for one of them, which shows in hexadecimal.
    in_hexadecimal: u64,
}

#[derive(Debug, Default)]
pub struct Tally {
    rows: [Row; Call::NAMES.len()],
    pub gap_flushes: GapFlushes,
    refusals: [u64; REFUSALS.len()],
    /// Accepted sends by panel: those of the lists, and those made after them, to see that each panel
    /// comes level.
    sends: [u64; PANELS],
    pub level_sends: [u64; PANELS],
    /// Refused calls between those. What is made after the lists is not counted among the calls.
    pub refused_between: u64,
    /// Drawings with edge flag 1 that leave the glass. Their pixels in the last line and the last column
    /// are not compared with the reference, which clamps them.
    pub stopped: u64,
    /// By the edge flag that they start under.
    pub lists: [u64; 2],
    /// Of these, such of units with fewer than four panels.
    pub fewer_panels: u64,
}

/// What the columns of the table mean.
pub const COLUMNS: &str = "
accepted      calls that document 01 accepts, as the model reads it
refused       calls that it refuses: nothing is done, every lent byte stays
by reference  accepted calls that the reference did too, for comparison; it has no send
panicked      of these, the reference panicked, where document 01 says that it does
by core       accepted and refused calls that the core did too, with those that are made
              after the lists to bring the panels level; - without the core
";

/// By their numbers.
const REFUSALS: [&str; 10] =
    ["", "LENT", "STATE", "WINDOW", "VALUE", "SOURCE", "RADIUS", "GLYPH", "ENDLESS", "PANEL"];

impl Tally {
    pub fn answered(&mut self, call: &Call, answer: &Answer) {
        let row = &mut self.rows[call.number()];
        if !answer.accepted() {
            row.refused += 1;
            self.refusals[answer.code as usize] += 1;
            return;
        }
        row.accepted += 1;
        if let Call::Send { number } = *call {
            self.sends[number as usize] += 1;
        }
    }

    pub fn reference_compared(&mut self, call: &Call, panicked: bool) {
        let row = &mut self.rows[call.number()];
        row.by_reference += 1;
        row.panicked += panicked as u64;
    }

    /// An accepted call that the reference cannot be asked about: a flush that shows these pairs.
    pub fn left_out(&mut self, call: &Call, pairs: &[u16]) {
        if let Call::Flush { fonts } = call {
            self.gap_flushes.count(fonts, pairs);
        }
    }

    pub fn core_compared(&mut self, call: &Call) {
        self.rows[call.number()].by_core += 1;
    }

    /// Accepted calls of the painter by bytes.
    pub fn painted_by_bytes(&self) -> u64 {
        Call::number_of("paint_bitmap_by_bytes").map_or(0, |number| self.rows[number].accepted)
    }

    pub fn all_lists(&self) -> u64 {
        self.lists.iter().sum()
    }

    fn accepted(&self) -> u64 {
        self.rows.iter().map(|row| row.accepted).sum()
    }

    pub fn calls(&self) -> u64 {
        self.rows.iter().map(|row| row.accepted + row.refused).sum()
    }

    pub fn print(&self, core: bool) {
        println!("{COLUMNS}");
        println!(
            "{:<24}{:>12}{:>12}{:>14}{:>12}{:>12}",
            "call", "accepted", "refused", "by reference", "panicked", "by core"
        );
        for (name, row) in Call::NAMES.into_iter().zip(&self.rows) {
            let by_core = if core && core_side::has(name) { row.by_core.to_string() } else { "-".into() };
            println!(
                "{:<24}{:>12}{:>12}{:>14}{:>12}{:>12}",
                name, row.accepted, row.refused, row.by_reference, row.panicked, by_core
            );
        }
        let refusals: Vec<String> = (1..REFUSALS.len())
            .map(|code| format!("{code} {} {}", REFUSALS[code], self.refusals[code]))
            .collect();
        println!("refusals: {}", refusals.join(", "));
        println!("{}", self.gap_flushes.in_words(core));
        println!("{}", self.edge_in_words(core));
        println!("sends: {}", by_panel(&self.sends));
        println!("sends after the lists, until all are idle: {}", by_panel(&self.level_sends));
        println!(
            "{} lists, {} of units with fewer than {PANELS} panels; {} of {} calls accepted; {} refused calls between the sends after the lists",
            self.all_lists(),
            self.fewer_panels,
            self.accepted(),
            self.calls(),
            self.refused_between
        );
    }

    fn edge_in_words(&self, core: bool) -> String {
        let Self { lists: [clamp, stop], stopped, .. } = self;
        let who = if core { "core held to the model at the edge" } else { "by the model alone at the edge" };
        format!(
            "lists with edge flag 0: {clamp}, with 1: {stop}; drawings that leave the glass with 1, {who}: {stopped}"
        )
    }
}

impl GapFlushes {
    fn count(&mut self, fonts: &FontsLent, pairs: &[u16]) {
        let gap: Vec<u16> = pairs.iter().copied().filter(|code| in_gap(*code)).collect();
        let listed = |code: &u16| fonts.extra_entries().any(|(entry, _)| entry == *code);
        self.all += !gap.is_empty() as u64;
        self.by_extra_list += gap.iter().any(listed) as u64;
        self.in_hexadecimal += !gap.iter().all(listed) as u64;
    }

    fn in_words(&self, core: bool) -> String {
        let Self { all, by_extra_list, in_hexadecimal } = self;
        let who = if core { "core held to the model" } else { "by the model alone" };
        format!(
            "flushes with a pair in the gap, {who}: {all}; {by_extra_list} show one by the extra list, {in_hexadecimal} show one in hexadecimal"
        )
    }
}

fn by_panel(counts: &[u64; PANELS]) -> String {
    let counts = counts.iter().enumerate().map(|(panel, count)| format!("panel {panel} {count}"));
    counts.collect::<Vec<_>>().join(", ")
}
