//! The header include/caption.h, the table of docs/CALLS.md, the Rust declarations of
//! host/caption-sys and the names of core/calls.txt are held to the exported functions of
//! crates/caption_c: their names, the number, names and kinds of their parameters, and the numbers that
//! they answer.

mod damage;
mod edits;
mod function;
mod header;
mod rust_like;
mod table;
mod tokens;

use function::Function;
use std::fs;
use std::path::{Path, PathBuf};

/// The files as text.
#[derive(Clone)]
struct Texts {
    /// crates/caption_c/src/*.rt, and crates/model/src/lib.rt for the results.
    sources: String,
    header: String,
    table: String,
    declarations: String,
    names: String,
}

fn repository() -> PathBuf {
    Path::new(env!("CARGO_MANIFEST_DIR")).join("../..")
}

fn text(name: &str) -> String {
    let path = repository().join(name);
    fs::read_to_string(&path).unwrap_or_else(|error| panic!("{}: {error}", path.display()))
}

fn sources() -> String {
    let folder =
        fs::read_dir(repository().join("crates/caption_c/src")).expect("the folder of the exported calls");
    let mut names: Vec<PathBuf> = folder.map(|entry| entry.expect("a file").path()).collect();
    names.sort();
    let mut all = text("crates/model/src/lib.rt");
    for name in names {
        all += &fs::read_to_string(name).expect("a file of text");
    }
    all
}

impl Texts {
    fn read() -> Self {
        Self {
            sources: sources(),
            header: text("include/caption.h"),
            table: text("docs/CALLS.md"),
            declarations: text("host/caption-sys/src/calls.rs"),
            names: text("compare/core/calls.txt"),
        }
    }

    /// All that differs from the exported functions, or cannot be read.
    fn complaints(&self) -> Vec<String> {
        let exported = match rust_like::exported(&self.sources) {
            Ok(exported) => exported,
            Err(error) => return vec![format!("crates/caption_c/src: {error}")],
        };
        let found = [
            (
                "include/caption.h",
                header::prototypes(&self.header).map(|it| function::differences(&exported, &it)),
            ),
            ("docs/CALLS.md", table::rows(&self.table).map(|it| table::differences(&exported, &it))),
            (
                "host/caption-sys/src/calls.rs",
                rust_like::declared(&self.declarations).map(|it| function::differences(&exported, &it)),
            ),
            ("compare/core/calls.txt", Ok(name_differences(&exported, self.names.lines()))),
            ("Call::NAMES with DeviceCall::NAMES", Ok(name_differences(&exported, calls::names()))),
        ];
        let complaints = found.into_iter().flat_map(|(place, found)| {
            let found = found.unwrap_or_else(|error| vec![error]);
            found.into_iter().map(move |complaint| format!("{place}: {complaint}"))
        });
        complaints.collect()
    }
}

/// Names as calls.txt has them, without `caption_`.
fn name_differences<'a>(exported: &[Function], names: impl Iterator<Item = &'a str>) -> Vec<String> {
    let names: Vec<String> = names.map(|name| format!("caption_{name}")).collect();
    function::names_that_differ(exported, &names, |name| name)
}

#[test]
fn header_table_and_declarations_are_those_of_the_exported_calls() {
    let complaints = Texts::read().complaints();
    assert!(complaints.is_empty(), "\n{}\n", complaints.join("\n"));
}
