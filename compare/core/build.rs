//! Says which calls the core has: those of calls.txt. A new one is one more line there.

use std::fs;

fn main() {
    println!("cargo:rerun-if-changed=calls.txt");
    let names: Vec<String> = calls::names().map(|name| format!("{name:?}")).collect();
    println!("cargo:rustc-check-cfg=cfg(has, values({}))", names.join(", "));
    for name in fs::read_to_string("calls.txt").unwrap().lines() {
        assert!(calls::names().any(|known| known == name), "calls.txt: there is no call {name}");
        println!("cargo:rustc-cfg=has=\"{name}\"");
    }
}
