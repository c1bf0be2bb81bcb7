//! A difference between two sides, in words.

use calls::layout::{PANELS, field};
use calls::{Answer, Buffers};
use std::fmt;

#[derive(Debug, Clone)]
pub struct Difference {
    /// The step of the list that shows it; the length of the list for what its end shows.
    pub place: usize,
    pub what: String,
}

impl Difference {
    pub fn new(what: impl Into<String>) -> Self {
        Self { place: 0, what: what.into() }
    }

    pub fn at(self, place: usize) -> Self {
        Self { place, ..self }
    }
}

impl fmt::Display for Difference {
    fn fmt(&self, f: &mut fmt::Formatter) -> fmt::Result {
        write!(f, "at step {}: {}", self.place, self.what)
    }
}

pub fn compare_answers(one: &str, a: &Answer, other: &str, b: &Answer) -> Result<(), Difference> {
    if a == b {
        return Ok(());
    }
    Err(Difference::new(format!(
        "answers: {one} {} {:?}, {other} {} {:?}",
        a.code, a.numbers, b.code, b.numbers
    )))
}

pub fn compare_dirty(found: [u16; 4], expected: [u16; 4]) -> Result<(), Difference> {
    if found == expected {
        return Ok(());
    }
    Err(Difference::new(format!("dirty after the panic: reference {found:?}, before {expected:?}")))
}

pub fn compare_records(one: &str, a: &[u8], other: &str, b: &[u8]) -> Result<(), Difference> {
    if a == b {
        return Ok(());
    }
    let differing: Vec<String> = (0..a.len())
        .filter(|place| a[*place] != b[*place])
        .map(|place| format!("byte {place} ({}): {one} {}, {other} {}", field(place), a[place], b[place]))
        .take(8)
        .collect();
    Err(Difference::new(format!("record: {}", differing.join("; "))))
}

/// Compare two parts that start at the same place.
pub fn compare_bytes(
    what: &str,
    start: usize,
    one: &str,
    a: &[u8],
    other: &str,
    b: &[u8],
) -> Result<(), Difference> {
    if a == b {
        return Ok(());
    }
    let count = a.iter().zip(b).filter(|(x, y)| x != y).count();
    let first = a.iter().zip(b).position(|(x, y)| x != y);
    Err(Difference::new(match first {
        Some(place) => format!(
            "{what}: {count} bytes differ, the first is {}: {one} {:#04x}, {other} {:#04x}",
            start + place,
            a[place],
            b[place]
        ),
        None => format!("{what}: lengths {} and {}", a.len(), b.len()),
    }))
}

pub fn compare_buffers(one: &str, a: &Buffers, other: &str, b: &Buffers) -> Result<(), Difference> {
    compare_bytes("lent record", 0, one, &a.record, other, &b.record)?;
    compare_bytes("lent memory", 0, one, &a.memory, other, &b.memory)?;
    compare_panels("lent panel", one, a, other, b)
}

pub fn compare_panels(
    what: &str,
    one: &str,
    a: &Buffers,
    other: &str,
    b: &Buffers,
) -> Result<(), Difference> {
    if a.panels == b.panels {
        return Ok(());
    }
    (0..PANELS).try_for_each(|panel| {
        let what = format!("{what} {panel}");
        compare_bytes(&what, 0, one, &a.panels[panel], other, &b.panels[panel])
    })
}
