//! compare/divisions finds divisions, those of callees too, and no others.

use std::fs;
use std::path::{Path, PathBuf};
use std::process::{Command, Output};

/// Divisions in what a call calls, in none, and in a function that only another call reaches.
const CODE: &str = "
static __attribute__((noinline)) unsigned halve(unsigned a) { return a / 2; }
static __attribute__((noinline)) unsigned divide(unsigned a, unsigned b) { return a / b; }
static __attribute__((noinline)) unsigned twice(unsigned a, unsigned b) { return divide(a, b) + divide(b, a); }
unsigned caption_by_callee(unsigned a, unsigned b) { return twice(a, b) + 1; }
unsigned caption_by_product(unsigned a) { return halve(a) / 20 + halve(a + 1); }
";

fn done(command: &mut Command) -> Output {
    command.output().unwrap_or_else(|error| panic!("{command:?}: {error}"))
}

/// A static library of this code, in a folder of its own.
fn library() -> PathBuf {
    let folder = std::env::temp_dir().join(format!("compare-divisions-{}", std::process::id()));
    fs::create_dir_all(&folder).expect("a temporary folder");
    fs::write(folder.join("code.c"), CODE).expect("a file");
    let cc = ["-O2", "-ffunction-sections", "-c", "code.c"];
    assert!(done(Command::new("cc").args(cc).current_dir(&folder)).status.success());
    assert!(done(Command::new("ar").args(["rcs", "code.a", "code.o"]).current_dir(&folder)).status.success());
    folder.join("code.a")
}

/// Exit status and what is printed.
fn divisions(arguments: &[&str]) -> (Option<i32>, String) {
    let program = Path::new(env!("CARGO_MANIFEST_DIR")).join("../divisions");
    let output = done(Command::new(program).args(arguments));
    (output.status.code(), String::from_utf8_lossy(&output.stdout).into_owned())
}

#[test]
fn divisions_of_a_call_and_of_what_it_reaches() {
    let library = library();
    let path = library.to_str().expect("a path");
    let (status, printed) = divisions(&[path, "caption_by_callee"]);
    assert_eq!(status, Some(1), "{printed}");
    assert!(printed.contains("divide: ") && printed.contains(" 1 divisions"), "{printed}");
    let (status, printed) = divisions(&[path, "caption_by_product"]);
    assert_eq!((status, printed.lines().count()), (Some(0), 2), "{printed}");
    assert_eq!(divisions(&[path, "caption_by_chance"]).0, Some(2));
    assert_eq!(divisions(&[path]).0, Some(2));
    assert_eq!(divisions(&["/no/such/library.a", "caption_by_callee"]).0, Some(2));
    fs::remove_dir_all(library.parent().expect("its folder")).expect("the folder goes");
}
