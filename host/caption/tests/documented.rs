//! Every public item of the crate has an example in its documentation, and unsafe code stands in one module.

use std::fs;
use std::path::{Path, PathBuf};

/// The module that has the unsafe code; nothing of it is public.
const CALLS: &str = "calls.rs";
/// Traits that nobody outside the crate can name.
const SEALED: [&str; 2] = ["pub trait Sealed {}", "pub trait Bytes: core::fmt::Debug {"];

/// The files of a folder and of those in it.
fn files(folder: &Path) -> Vec<PathBuf> {
    let entries = fs::read_dir(folder).unwrap().map(|entry| entry.unwrap().path());
    entries.flat_map(|path| if path.is_dir() { files(&path) } else { vec![path] }).collect()
}

/// The crate's sources: name and text.
fn sources() -> Vec<(String, String)> {
    let folder = Path::new(env!("CARGO_MANIFEST_DIR")).join("src");
    let name = |path: &Path| path.strip_prefix(&folder).unwrap().display().to_string();
    files(&folder).iter().map(|path| (name(path), fs::read_to_string(path).unwrap())).collect()
}

fn is_public_item(line: &str) -> bool {
    let kinds = ["fn ", "const ", "static ", "struct ", "enum ", "union ", "trait ", "type ", "unsafe "];
    let rest = line.trim_start().strip_prefix("pub ");
    rest.is_some_and(|rest| kinds.iter().any(|kind| rest.starts_with(kind))) && !SEALED.contains(&line)
}

/// Whether the comment right above the last of these lines has an example. Attributes may stand between.
fn has_example(lines: &[&str]) -> bool {
    let above = lines.iter().rev().skip(1).map(|line| line.trim());
    let comment = above.take_while(|line| line.starts_with("///") || line.starts_with("#["));
    comment.filter(|line| *line == "/// ```").count() >= 2
}

/// The public items without an example.
fn without_example(text: &str) -> Vec<&str> {
    let lines: Vec<&str> = text.lines().collect();
    let items = (0..lines.len()).filter(|&place| is_public_item(lines[place]));
    items.filter(|&place| !has_example(&lines[..=place])).map(|place| lines[place].trim()).collect()
}

/// The lines of code with the word `unsafe`.
fn with_unsafe(text: &str) -> Vec<&str> {
    let code = text.lines().map(str::trim).filter(|line| !line.starts_with("//"));
    code.filter(|line| line.split(|c: char| !c.is_alphanumeric() && c != '_').any(|word| word == "unsafe")).collect()
}

#[test]
fn every_public_item_has_an_example() {
    let mut items = 0;
    for (name, text) in sources().into_iter().filter(|(name, _)| name != CALLS) {
        assert_eq!(without_example(&text), [""; 0], "in {name}");
        items += text.lines().filter(|line| is_public_item(line)).count();
    }
    assert!(items > 100, "{items} public items");
}

#[test]
fn unsafe_code_stands_in_one_module() {
    for (name, text) in sources() {
        assert_eq!(with_unsafe(&text).is_empty(), name != CALLS, "in {name}");
        let allows = text.contains("allow(unsafe_code)");
        assert_eq!(allows, name == CALLS, "in {name}");
    }
}

const SOME: &str = "\
/// It has one.
///
/// ```
/// example();
/// ```
#[derive(Debug)]
pub struct Shown {
    pub field: u8,
}

/// It has none.
pub struct Hidden;

impl Shown {
    /// ```
    /// example();
    /// ```

    pub fn detached() {}
    /// One that is not run.
    /// ```text
    /// ```
    pub const fn text() {}
    pub(crate) fn not_public() {}
    fn private() {} // pub fn
}
pub enum Bare {}
";

#[test]
fn the_search_finds_what_has_no_example() {
    let missing = ["pub struct Hidden;", "pub fn detached() {}", "pub const fn text() {}", "pub enum Bare {}"];
    assert_eq!(without_example(SOME), missing);
}

#[test]
fn the_search_finds_unsafe_code() {
    let text = "/// unsafe { }\n#![deny(unsafe_code)]\nlet x = unsafe { y };\nunsafe fn f() {}\nnot_unsafe();\n";
    assert_eq!(with_unsafe(text), ["let x = unsafe { y };", "unsafe fn f() {}"]);
}
