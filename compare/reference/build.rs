//! Copies the reference, unchanged, into the build folder, with stand-in fonts where its
//! `include_bytes!` looks for them, and adds the child module `access` beside `default.rs`.

#[path = "sha256.rs"]
mod sha256;

use std::path::{Path, PathBuf};
use std::{env, fs};

/// Our module that reads and sets the private fields.
const ACCESS: &str = "src/access.rs";

/// Stands in the place of `device/default.rs`: the unchanged file, then its child.
const WRAPPER: &str = "include!(\"default/unchanged.rs\");\npub(crate) mod access;\n";

const MODULES: &str = "#[allow(dead_code)]\npub mod device;\n\
    #[allow(dead_code, unused_imports)]\npub mod machine;\n";

fn main() {
    let source = source_folder();
    let out = PathBuf::from(env::var("OUT_DIR").unwrap()).join("src");
    println!("cargo:rerun-if-env-changed=CAPTION_REFERENCE");
    println!("cargo:rerun-if-changed={ACCESS}");
    println!("cargo:rerun-if-changed=SHA256SUMS");
    println!("cargo:rerun-if-changed=sha256.rs");

    for line in fs::read_to_string("SHA256SUMS").unwrap().lines() {
        let (sum, name) = line.split_once("  ").expect("a line of SHA256SUMS is: checksum, two spaces, name");
        copy_unchanged(&source.join(name), sum, &out.join(place(name)));
    }
    write(&out.join("device/default.rs"), WRAPPER.as_bytes());
    write(&out.join("device/default/access.rs"), &fs::read(ACCESS).unwrap());
    write(&out.join("modules.rs"), MODULES.as_bytes());
    for (name, font) in [
        ("ascii_8", fonts::ASCII8),
        ("ascii_16", fonts::ASCII16),
        ("gb2312_16", fonts::GB),
        ("emoji_16", fonts::EMOJI),
    ] {
        write(&out.join(format!("data/{name}.dat")), &font.bytes());
    }
}

/// CAPTION_REFERENCE, or the shared docs/src beside the repository.
fn source_folder() -> PathBuf {
    let root = match env::var_os("CAPTION_REFERENCE") {
        Some(folder) => PathBuf::from(folder),
        None => Path::new(&env::var("CARGO_MANIFEST_DIR").unwrap()).join("../../../shared/docs/src"),
    };
    root.join("gvb_interp/src")
}

/// `default.rs` makes room for the wrapper; the others keep their places.
fn place(name: &str) -> &str {
    if name == "device/default.rs" { "device/default/unchanged.rs" } else { name }
}

fn copy_unchanged(from: &Path, sum: &str, to: &Path) {
    println!("cargo:rerun-if-changed={}", from.display());
    let bytes = fs::read(from).unwrap_or_else(|error| {
        panic!("{}: {error}; CAPTION_REFERENCE names the reference's folder (docs/src)", from.display())
    });
    let found = sha256::sha256(&bytes);
    assert!(found == sum, "{} is not the reference: its SHA-256 is {found}, not {sum}", from.display());
    write(to, &bytes);
}

fn write(to: &Path, bytes: &[u8]) {
    fs::create_dir_all(to.parent().unwrap()).unwrap();
    fs::write(to, bytes).unwrap();
}
