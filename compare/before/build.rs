//! Links a copy of an earlier landing's static library, all its symbols renamed so that it can stand beside
//! that of today, and copies core's source and caption-sys's declarations to call it by the new names.

use calls::layout::{BANDS, PANELS, RECORD, RECT};
use std::path::{Path, PathBuf};
use std::process::Command;
use std::{env, fs};

const PREFIX: &str = "before_";
/// Where core's source takes the declarations from, and where its copy does. A library that lacks calls leaves
/// some of them unused.
const DECLARATIONS: [&str; 2] = ["use caption_sys as ffi;", "#[allow(dead_code)]\nmod ffi;"];

fn main() {
    let library = library();
    let bands = bands();
    let whole = RECORD - PANELS * (BANDS - bands) * RECT;
    let record = record_length(whole);
    let out = PathBuf::from(env::var("OUT_DIR").unwrap());
    let symbols = defined_symbols(&library);
    write_renamed(&library, &symbols, &out);
    println!("cargo:rustc-link-search=native={}", out.display());
    println!("cargo:rustc-link-lib=static:-bundle=caption_before");
    say_calls(&symbols, record == whole, &out);
    copy_source(&out);
    let modules =
        format!("mod library;\npub const BANDS: usize = {bands};\nconst RECORD: usize = {record};\n");
    fs::write(out.join("modules.rs"), modules).unwrap();
}

/// That of the folder which CAPTION_BEFORE names.
fn library() -> PathBuf {
    println!("cargo:rerun-if-env-changed=CAPTION_BEFORE");
    let advice = "it names the folder of an earlier landing's libcaption.a, by its whole path";
    let folder = env::var_os("CAPTION_BEFORE");
    let library = Path::new(&folder.unwrap_or_else(|| panic!("CAPTION_BEFORE is not set: {advice}")))
        .join("libcaption.a");
    println!("cargo:rerun-if-changed={}", library.display());
    assert!(library.exists(), "CAPTION_BEFORE: there is no {}: {advice}", library.display());
    library
}

/// How many bands its record keeps what is owed by: CAPTION_BEFORE_BANDS, or as many as today.
fn bands() -> usize {
    println!("cargo:rerun-if-env-changed=CAPTION_BEFORE_BANDS");
    let Ok(text) = env::var("CAPTION_BEFORE_BANDS") else { return BANDS };
    let bands = text.parse().ok().filter(|bands| [1, BANDS].contains(bands));
    bands.unwrap_or_else(|| {
        panic!("CAPTION_BEFORE_BANDS is {text:?}: it is 1 for a library from before change request 6, else {BANDS}")
    })
}

/// The bytes of its record: CAPTION_BEFORE_RECORD, or all that a record with its bands has today.
fn record_length(whole: usize) -> usize {
    println!("cargo:rerun-if-env-changed=CAPTION_BEFORE_RECORD");
    let Ok(text) = env::var("CAPTION_BEFORE_RECORD") else { return whole };
    let length = text.parse().ok().filter(|length| (1..=whole).contains(length));
    length.unwrap_or_else(|| {
        panic!("CAPTION_BEFORE_RECORD is {text:?}: it is the length of the library's record, 1 to {whole}")
    })
}

/// The symbols that other objects see.
fn defined_symbols(library: &Path) -> Vec<String> {
    let mut nm = Command::new("nm");
    let listed = run(nm.args(["--defined-only", "--extern-only", "--format=posix"]).arg(library));
    // A line is: name, kind, value; a member's name stands alone.
    let names = listed.lines().filter_map(|line| line.split_once(' '));
    let mut names: Vec<String> = names.map(|(name, _)| name.to_string()).collect();
    names.sort();
    names.dedup();
    names
}

fn write_renamed(library: &Path, symbols: &[String], out: &Path) {
    let list = out.join("symbols.txt");
    let lines = symbols.iter().map(|name| format!("{name} {PREFIX}{name}\n"));
    fs::write(&list, lines.collect::<String>()).unwrap();
    let mut objcopy = Command::new("objcopy");
    let by_list = format!("--redefine-syms={}", list.display());
    run(objcopy.arg(by_list).arg(library).arg(out.join("libcaption_before.a")));
}

/// What a command of binutils prints.
fn run(command: &mut Command) -> String {
    let output = command.output().unwrap_or_else(|error| panic!("{command:?}: {error}"));
    let [printed, errors] = [output.stdout, output.stderr].map(|bytes| String::from_utf8(bytes).unwrap());
    assert!(output.status.success(), "{command:?}: {errors}");
    printed
}

/// The calls that this library has, as core's source asks for them. With a shorter record it is told other
/// things at open, so that open is left out.
fn say_calls(symbols: &[String], whole_record: bool, out: &Path) {
    let names: Vec<String> = calls::names().map(|name| format!("{name:?}")).collect();
    println!("cargo:rustc-check-cfg=cfg(has, values({}))", names.join(", "));
    let mut calls = String::new();
    let has = |name: &str| symbols.contains(&format!("caption_{name}")) && (name != "open" || whole_record);
    for name in calls::names().filter(|name| has(name)) {
        println!("cargo:rustc-cfg=has=\"{name}\"");
        calls += &format!("{name}\n");
    }
    fs::write(out.join("calls.txt"), calls).unwrap();
}

fn copy_source(out: &Path) {
    let paths = ["../core/src/lib.rs", "../core/src/device.rs", "../../host/caption-sys/src/calls.rs"];
    let [answer, device, ffi] = paths.map(|path| {
        println!("cargo:rerun-if-changed={path}");
        fs::read_to_string(path).unwrap_or_else(|error| panic!("{path}: {error}"))
    });
    fs::create_dir_all(out.join("library")).unwrap();
    fs::write(out.join("library/mod.rs"), with_own_declarations(&answer)).unwrap();
    fs::write(out.join("library/device.rs"), device).unwrap();
    fs::write(out.join("library/ffi.rs"), with_new_names(&ffi)).unwrap();
}

fn with_own_declarations(source: &str) -> String {
    let [from, to] = DECLARATIONS;
    assert!(source.contains(from), "core's source has no {from}");
    source.replace(from, to)
}

/// The declarations of the C interface, each for the renamed symbol.
fn with_new_names(ffi: &str) -> String {
    let line = |line: &str| {
        let function = line.trim_start().strip_prefix("pub fn ").and_then(|rest| rest.split_once('('));
        let link_name = function.map(|(name, _)| format!("#[link_name = \"{PREFIX}{name}\"]\n"));
        format!("{}{line}\n", link_name.unwrap_or_default())
    };
    ffi.lines().map(line).collect()
}
