//! compare/run by itself: its usage, the arguments that it refuses, the needs that it tests.
//! No run here gets beyond these: the reference's folder is always a wrong one.

use driver::run::Exhaustive;
use std::fs;
use std::os::unix::fs::symlink;
use std::path::{Path, PathBuf};
use std::process::{Command, Output};

const COMPARE: &str = concat!(env!("CARGO_MANIFEST_DIR"), "/..");

fn program() -> PathBuf {
    Path::new(COMPARE).join("run")
}

/// The run with these arguments and no reference, from the folder of temporary files.
fn command(program: &Path, arguments: &[&str]) -> Command {
    let mut command = Command::new(program);
    command.args(arguments).current_dir(std::env::temp_dir());
    command.env("CAPTION_REFERENCE", "/no/such/reference");
    command.env_remove("CAPTION_LIBRARY").env_remove("CAPTION_PANELRUN").env_remove("CARGO_JOBS");
    command
}

fn said(output: &Output) -> (Option<i32>, String, String) {
    let text = |bytes: &[u8]| String::from_utf8_lossy(bytes).into_owned();
    (output.status.code(), text(&output.stdout), text(&output.stderr))
}

fn run(command: &mut Command) -> (Option<i32>, String, String) {
    said(&command.output().expect("compare/run starts"))
}

/// A folder of its own for a test, removed at its end.
struct Folder(PathBuf);

impl Folder {
    fn new(name: &str) -> Self {
        let path = std::env::temp_dir().join(format!("compare-{name}-{}", std::process::id()));
        fs::create_dir_all(&path).expect("a temporary folder");
        Self(path)
    }
}

impl Drop for Folder {
    fn drop(&mut self) {
        let _ = fs::remove_dir_all(&self.0);
    }
}

#[test]
fn usage_by_any_path() {
    let folder = Folder::new("usage");
    let link = folder.0.join("link");
    symlink(program(), &link).expect("a symbolic link");
    let usage = run(&mut command(&program(), &["--help"]));
    assert_eq!((usage.0, usage.2.as_str()), (Some(0), ""));
    for word in ["CALLS", "--seed S", "--no-core", "CAPTION_REFERENCE", "CAPTION_LIBRARY", "CAPTION_PANELRUN"]
        .into_iter()
        .chain(["CARGO_JOBS", "by reference", "panicked", "Exit status"])
    {
        assert!(usage.1.contains(word), "{word}");
    }
    assert_eq!(run(&mut command(&link, &["-h"])), usage);
    assert_eq!(run(&mut command(&link, &["1000", "--seed", "2", "--help"])), usage);
}

#[test]
fn usage_and_table_say_alike_what_the_columns_mean() {
    let usage = run(&mut command(&program(), &["--help"])).1;
    for line in driver::tally::COLUMNS.lines() {
        assert!(usage.contains(line), "{line}");
    }
}

#[test]
fn usage_and_readme_say_how_many_calls_the_exhaustive_lists_need() {
    let Exhaustive { lists, calls } = Exhaustive::with_seed(1);
    let usage = run(&mut command(&program(), &["--help"])).1;
    let readme = fs::read_to_string(Path::new(COMPARE).join("README.md")).expect("the README");
    for text in [usage, readme.replace(',', "")] {
        assert!(text.contains(&format!("{lists} exhaustive lists need {calls} calls")), "{lists}, {calls}");
    }
}

#[test]
fn bad_arguments_are_refused_at_once() {
    let bad: [(&[&str], &str); 16] = [
        (&["10x"], "'10x'"),
        (&["x"], "'x'"),
        (&["1.5"], "'1.5'"),
        (&["0"], "'0'"),
        (&[""], "''"),
        (&["9999999999999999999"], "'9999999999999999999'"),
        (&["-5"], "'-5'"),
        (&["--frob"], "'--frob'"),
        (&["--seed=1"], "'--seed=1'"),
        (&["1", "2"], "1 and 2"),
        (&["--seed"], "--seed needs a number"),
        (&["--seed", "abc"], "'abc'"),
        (&["--seed", "-1"], "'-1'"),
        (&["--seed", "4294967296"], "'4294967296'"),
        (&["--seed", "--no-core"], "'--no-core'"),
        (&["--seed", "1", "--seed", "2"], "1 and 2"),
    ];
    for (arguments, word) in bad {
        let (status, printed, error) = run(&mut command(&program(), arguments));
        let lines: Vec<&str> = error.lines().collect();
        assert_eq!((status, printed.as_str()), (Some(2), ""), "{arguments:?}");
        assert!(lines[0].starts_with("compare/run: ") && lines[0].contains(word), "{error}");
        assert!(
            lines.len() == 2 && lines[1].starts_with("usage: ") && lines[1].contains("--help"),
            "{error}"
        );
    }
}

#[test]
fn all_that_is_missing_is_named() {
    let mut command = command(&program(), &["1"]);
    command.env("CAPTION_LIBRARY", "no-library").env("CAPTION_PANELRUN", "/no/such/panelrun");
    let (status, printed, error) = run(&mut command);
    assert_eq!((status, printed.as_str()), (Some(2), ""));
    let library = std::env::temp_dir().join("no-library/libcaption.a");
    for word in ["/no/such/reference", &library.display().to_string(), "/no/such/panelrun"] {
        assert!(error.contains(word), "{word}: {error}");
    }
}

#[test]
fn the_reference_is_named_and_tested() {
    let folder = Folder::new("reference");
    let source = folder.0.join("gvb_interp/src/device");
    fs::create_dir_all(&source).expect("a folder");
    fs::write(source.join("default.rs"), "// another one\n").expect("a file");
    let mut command = command(&program(), &["1", "--no-core"]);
    command.env("CAPTION_REFERENCE", folder.0.file_name().expect("a name"));
    let (status, _, error) = run(&mut command);
    assert_eq!(status, Some(2));
    assert!(error.contains("device/default.rs is not the reference"), "{error}");
    assert!(error.contains("lacks gvb_interp/src/machine.rs"), "{error}");
}

#[test]
fn an_old_cargo_is_named() {
    let mut command = command(&program(), &["1", "--no-core"]);
    // bash takes this for a function of its own.
    command.env("BASH_FUNC_cargo%%", "() { echo 'cargo 1.84.1 (66221abde 2024-11-19)'; }");
    let (status, _, error) = run(&mut command);
    assert_eq!(status, Some(2));
    assert!(error.contains("cargo 1.84.1") && error.contains("1.85"), "{error}");
}
