//! Links libcaption.a: that of the folder which CAPTION_LIBRARY names or, where it is not set, target/staticlib of this
//! repository, where tools/staticlib makes it if it is missing or older than the core's sources.

use std::path::{Path, PathBuf};
use std::process::Command;
use std::time::SystemTime;
use std::{env, fs};

/// What `rt lib` compiles for: machine, system, bits of a pointer.
const TARGET: [&str; 3] = ["x86_64", "linux", "64"];
/// The number of that machine in the head of an object file.
const X86_64: [u8; 2] = [62, 0];

fn main() {
    println!("cargo::rerun-if-changed=build.rs");
    if env::var_os("CARGO_FEATURE_LINK").is_none() {
        return;
    }
    println!("cargo::rerun-if-env-changed=CAPTION_LIBRARY");
    let linked = test_target().and_then(|()| library()).and_then(|library| test_archive(&library).map(|()| library));
    match linked {
        Ok(library) => {
            let folder = library.parent().expect("the library lies in a folder");
            println!("cargo::rerun-if-changed={}", library.display());
            println!("cargo::rustc-link-search=native={}", folder.display());
            println!("cargo::rustc-link-lib=static:-bundle=caption");
        }
        Err(message) => message.lines().for_each(|line| println!("cargo::error={line}")),
    }
}

fn test_target() -> Result<(), String> {
    let asked = ["ARCH", "OS", "POINTER_WIDTH"].map(|name| env::var(format!("CARGO_CFG_TARGET_{name}")).unwrap());
    if asked == TARGET {
        return Ok(());
    }
    let target = env::var("TARGET").unwrap();
    Err(format!("the target is {target}, and libcaption.a is for x86-64 Linux: tools/staticlib makes no other"))
}

/// The library that is linked.
fn library() -> Result<PathBuf, String> {
    match env::var_os("CAPTION_LIBRARY").filter(|folder| !folder.is_empty()) {
        Some(folder) => named(Path::new(&folder)),
        None => made(&Path::new(env!("CARGO_MANIFEST_DIR")).join("../..")),
    }
}

fn named(folder: &Path) -> Result<PathBuf, String> {
    let advice = "the variable names the folder of libcaption.a, by its whole path";
    if !folder.is_absolute() {
        return Err(format!("CAPTION_LIBRARY is {}: {advice}", folder.display()));
    }
    let library = folder.join("libcaption.a");
    if library.is_file() {
        return Ok(library);
    }
    Err(format!("CAPTION_LIBRARY is {}, and there is no libcaption.a in it: {advice}", folder.display()))
}

/// The one of the repository, made again where it must be.
fn made(repository: &Path) -> Result<PathBuf, String> {
    let library = repository.join("target/staticlib/libcaption.a");
    let sources = [repository.join("crates"), repository.join("crates.txt")];
    sources.iter().for_each(|source| println!("cargo::rerun-if-changed={}", source.display()));
    let newest = sources.iter().filter_map(|source| newest(source)).max();
    if changed(&library).is_some_and(|made| newest.is_none_or(|source| source <= made)) {
        return Ok(library);
    }
    match Command::new("rt").arg("version").output().and_then(|_| Command::new(repository.join("tools/staticlib")).output()) {
        Ok(output) if output.status.success() && library.is_file() => Ok(library),
        Ok(output) => {
            let said = [output.stdout, output.stderr].map(|bytes| String::from_utf8_lossy(&bytes).into_owned());
            Err(format!("tools/staticlib fails, run it by hand to see all:\n{}", last_lines(&said.concat())))
        }
        Err(error) if library.is_file() => {
            println!(
                "cargo::warning=libcaption.a is older than crates/, and rt can't be run to make it again: {error}"
            );
            Ok(library)
        }
        Err(error) => Err(format!(
            "there is no libcaption.a: tools/staticlib makes it in target/staticlib of the repository, but rt can't be run \
             ({error}). Put the Rattle toolchain on PATH, or let CAPTION_LIBRARY name the folder of a libcaption.a"
        )),
    }
}

/// What a program said at the end.
fn last_lines(text: &str) -> String {
    let lines: Vec<&str> = text.lines().collect();
    lines[lines.len().saturating_sub(10)..].join("\n")
}

fn changed(path: &Path) -> Option<SystemTime> {
    fs::metadata(path).and_then(|data| data.modified()).ok()
}

/// When a file was changed last, or the newest file of a folder.
fn newest(path: &Path) -> Option<SystemTime> {
    match fs::read_dir(path) {
        // not what rt made: crates/NAME/out
        Ok(entries) => entries
            .filter_map(|entry| Some(entry.ok()?.path()).filter(|it| !it.ends_with("out")))
            .filter_map(|it| newest(&it))
            .max(),
        Err(_) => changed(path),
    }
}

/// An archive, whose first object is for the target's machine.
fn test_archive(library: &Path) -> Result<(), String> {
    let bytes = fs::read(library).map_err(|error| format!("{} can't be read: {error}", library.display()))?;
    if !bytes.starts_with(b"!<arch>\n") {
        return Err(format!("{} is no archive", library.display()));
    }
    let object = bytes.windows(20).find(|part| part.starts_with(b"\x7fELF"));
    match object {
        Some(head) if head[4] == 2 && head[18..20] == X86_64 => Ok(()),
        Some(_) => Err(format!("{} is for another machine than x86-64", library.display())),
        None => Err(format!("{} holds no object file of Linux", library.display())),
    }
}
