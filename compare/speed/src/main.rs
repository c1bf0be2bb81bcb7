//! How long calls take, core against reference, or against plain Rust or the core's own other calls where
//! a row says so.

mod before;
mod less;
mod library;
mod limits;
mod measure;
mod plain;
mod rows;
mod side;

use driver::core_side;
use library::Library;
use measure::{Measured, PAIRS, SLICE, measure, measure_alone};
use rows::{Row, rows};

/// A machine may be disturbed for as long as a row takes.
const MORE_TRIES: usize = 2;

fn main() {
    if std::env::args().len() > 1 {
        eprintln!("speed takes no arguments. From compare/: cargo run --release --features core -p speed");
        std::process::exit(2);
    }
    let linked = core_side::linked().zip(core_side::linked_device());
    let core = linked.map(|(answering, device)| Library::today(answering, device));
    if core.is_none() {
        println!("Built without --features core: the Rust sides alone.");
    }
    print_columns();
    let mut over = vec![];
    for row in rows(core) {
        let name = row.name.clone();
        if !report(row) {
            over.push(name);
        }
    }
    if let (Some(before), Some(now)) = (before::linked(), core) {
        before::report(before, now);
        less::report(before, now);
    }
    if !over.is_empty() {
        println!("over the limit: {}", over.join("; "));
        std::process::exit(1);
    }
}

fn print_columns() {
    println!(
        "Each row: {PAIRS} pairs of slices of about {} microseconds, Rust and core in turn.
Rust ns  one turn of the reference, or of what the name says: plain Rust, the core's pixel painter, its
         set_row with a plain copy or as often as there are calls, its drawing with edge flag 0, its send.
         The median
core ns  one turn of the core: the median
ratio    core / Rust within a pair: the median
limit    what the ratio may be at most, - where none was set. A row above it is measured up to
         {MORE_TRIES} times more, and the lowest ratio counts. Exit status 1 if one stays above
",
        SLICE.as_micros()
    );
    println!("{:<64}{:>10}{:>10}{:>8}{:>8}", "call", "Rust ns", "core ns", "ratio", "limit");
}

/// One line of the table, without the core's part where there is no core; whether the limit holds.
fn report(row: Row) -> bool {
    let Row { name, mut rust, core, limit } = row;
    let bound = limit.map_or("-".to_string(), |limit| format!("{limit:.2}"));
    let Some(mut core) = core else {
        println!("{name:<64}{:>10.1}{:>10}{:>8}{bound:>8}", measure_alone(&mut *rust), "-", "-");
        return true;
    };
    let holds = |measured: &Measured| limit.is_none_or(|limit| measured.ratio <= limit);
    let mut lowest = measure(&mut *rust, &mut core);
    for _ in 0..MORE_TRIES {
        if !holds(&lowest) {
            lowest = lowest.or_lower(measure(&mut *rust, &mut core));
        }
    }
    println!("{name:<64}{:>10.1}{:>10.1}{:>8.2}{bound:>8}", lowest.rust, lowest.core, lowest.ratio);
    holds(&lowest)
}

#[cfg(test)]
mod tests;
