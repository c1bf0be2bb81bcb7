//! What the build says where there is no library to link.

use std::path::{Path, PathBuf};
use std::process::Command;
use std::{env, fs};

/// A folder for one test, with a libcaption.a of these bytes.
fn folder(name: &str, library: &[u8]) -> PathBuf {
    let folder = Path::new(env!("CARGO_TARGET_TMPDIR")).join(name);
    fs::create_dir_all(&folder).expect("a folder");
    fs::write(folder.join("libcaption.a"), library).expect("a file");
    folder
}

/// What a build with this variable prints; it fails.
fn build(name: &str, library: &Path, arguments: &[&str]) -> String {
    let mut cargo = Command::new(env!("CARGO"));
    let target = Path::new(env!("CARGO_TARGET_TMPDIR")).join(format!("{name}-target"));
    cargo.args(["build", "--offline", "--target-dir"]).arg(target).args(arguments);
    cargo.current_dir(env!("CARGO_MANIFEST_DIR")).env("CAPTION_LIBRARY", library);
    let output = cargo.output().expect("cargo");
    assert!(!output.status.success(), "{name} is built");
    String::from_utf8(output.stderr).expect("text")
}

/// The first object of an archive, for a machine of this number.
fn archive(machine: u8) -> Vec<u8> {
    [b"!<arch>\n\x7fELF\x02\x01\x01", &[0; 9][..], &[1, 0, machine, 0], &[0; 40]].concat()
}

#[test]
fn a_folder_without_the_library() {
    let said = build("none", Path::new("/no/such/folder"), &[]);
    assert!(said.contains("CAPTION_LIBRARY is /no/such/folder, and there is no libcaption.a in it"), "{said}");
}

#[test]
fn a_folder_by_half_its_path() {
    let said = build("half", Path::new("target/staticlib"), &[]);
    assert!(said.contains("names the folder of libcaption.a, by its whole path"), "{said}");
}

#[test]
fn a_file_that_is_no_archive() {
    let said = build("text", &folder("text", b"no archive"), &[]);
    assert!(said.contains("libcaption.a is no archive"), "{said}");
}

#[test]
fn an_archive_without_an_object() {
    let said = build("empty", &folder("empty", b"!<arch>\n"), &[]);
    assert!(said.contains("libcaption.a holds no object file of Linux"), "{said}");
}

#[test]
fn an_archive_for_another_machine() {
    let said = build("arm", &folder("arm", &archive(183)), &[]);
    assert!(said.contains("libcaption.a is for another machine than x86-64"), "{said}");
}

#[test]
fn another_target() {
    let library = folder("other", &archive(62));
    let said = build("other", &library, &["--target", "aarch64-unknown-linux-gnu"]);
    assert!(said.contains("the target is aarch64-unknown-linux-gnu, and libcaption.a is for x86-64 Linux"), "{said}");
}
