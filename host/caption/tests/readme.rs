//! The lines that the README shows are those of programs that run, and both programs show the same.

use std::path::{Path, PathBuf};
use std::process::Command;
use std::{env, fs};

fn repository() -> PathBuf {
    Path::new(env!("CARGO_MANIFEST_DIR")).join("../..")
}

fn text(name: &str) -> String {
    fs::read_to_string(repository().join(name)).unwrap_or_else(|error| panic!("{name}: {error}"))
}

/// The lines between the fences of a language.
fn shown(language: &str) -> Vec<String> {
    let readme = text("README.md");
    let (_, behind) = readme.split_once(&format!("```{language}\n")).expect("a piece of that language");
    let (piece, _) = behind.split_once("```").expect("its end");
    trimmed(piece)
}

fn trimmed(text: &str) -> Vec<String> {
    text.lines().map(|line| line.trim().to_string()).filter(|line| !line.is_empty()).collect()
}

/// Whether all lines stand in the program in this order.
fn in_order(lines: &[String], program: &str) -> bool {
    let program = trimmed(program);
    let mut rest = program.iter();
    lines.iter().all(|line| rest.any(|other| other == line))
}

#[test]
fn its_lines_are_those_of_the_programs() {
    let (rust, c) = (shown("rust"), shown("c"));
    assert!(rust.len() == 9 && in_order(&rust, &text("host/caption/examples/cue.rs")), "{rust:#?}");
    assert!(c.len() == 7 && in_order(&c, &text("host/cue.c")), "{c:#?}");
}

fn output(command: &mut Command) -> String {
    let output = command.output().unwrap_or_else(|error| panic!("{command:?}: {error}"));
    assert!(output.status.success(), "{command:?}: {}", String::from_utf8_lossy(&output.stderr));
    String::from_utf8(output.stdout).expect("text")
}

#[test]
fn both_programs_show_the_same_lines() {
    let program = Path::new(env!("CARGO_TARGET_TMPDIR")).join("cue");
    let library = env::var_os("CAPTION_LIBRARY").map_or(repository().join("target/staticlib"), PathBuf::from);
    let mut compile = Command::new("cc");
    compile.args(["-std=c99", "-Wall", "-Wextra", "-Werror", "-I"]).arg(repository().join("include"));
    output(compile.arg(repository().join("host/cue.c")).arg(library.join("libcaption.a")).arg("-o").arg(&program));
    let in_c = output(&mut Command::new(program));
    let mut cargo = Command::new(env!("CARGO"));
    let in_rust = output(
        cargo.args(["run", "--quiet", "--offline", "--example", "cue"]).current_dir(repository().join("host/caption")),
    );
    assert_eq!(in_c.lines().count(), 80);
    assert_eq!(in_c, in_rust);
}
