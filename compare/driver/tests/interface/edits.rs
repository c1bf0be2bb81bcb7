//! The must-fail edits of the crates, as docs/CALLS.md lists them.

use crate::{repository, text};
use std::collections::BTreeSet;
use std::fs;
use std::path::Path;

/// CRATE/NAME for each crates/CRATE/must-fail/NAME.edit.
fn edits() -> BTreeSet<String> {
    let mut found = BTreeSet::new();
    for folder in files(&repository().join("crates")) {
        for edit in files(&repository().join("crates").join(&folder).join("must-fail")) {
            if let Some(name) = edit.strip_suffix(".edit") {
                found.insert(format!("{folder}/{name}"));
            }
        }
    }
    found
}

/// The names of a folder's entries; none where there is no such folder.
fn files(folder: &Path) -> Vec<String> {
    let Ok(entries) = fs::read_dir(folder) else { return vec![] };
    entries.map(|entry| entry.expect("an entry").file_name().into_string().expect("a name")).collect()
}

/// Those in the last column of the table under "Wrong programs".
fn listed(page: &str) -> BTreeSet<String> {
    let (_, section) = page.split_once("## Wrong programs").expect("the section of wrong programs");
    let cells = section.lines().filter_map(|line| line.strip_suffix(" |")?.rsplit_once("| "));
    let names = cells.flat_map(|(_, cell)| cell.split(", ")).filter(|name| name.contains('/'));
    names.map(str::to_string).collect()
}

#[test]
fn every_must_fail_edit_is_listed() {
    let (edits, listed) = (edits(), listed(&text("docs/CALLS.md")));
    assert!(!edits.is_empty());
    let differing: Vec<_> = edits.symmetric_difference(&listed).collect();
    assert!(differing.is_empty(), "in crates or in docs/CALLS.md alone: {differing:?}");
}
