//! The file that was compiled is the unchanged reference.

#[path = "../sha256.rs"]
mod sha256;

const SUMS: &str = include_str!("../SHA256SUMS");

macro_rules! compiled {
    ($place:literal) => {
        include_bytes!(concat!(env!("OUT_DIR"), "/src/", $place))
    };
}

fn stands_in_sums(name: &str, bytes: &[u8]) -> bool {
    SUMS.lines().any(|line| line == format!("{}  {name}", sha256::sha256(bytes)))
}

#[test]
fn the_checksum_is_sha256() {
    assert_eq!(sha256::sha256(b"abc"), "ba7816bf8f01cfea414140de5dae2223b00361a396177a9cb410ff61f20015ad");
}

#[test]
fn the_reference_is_unchanged() {
    assert!(stands_in_sums("device/default.rs", compiled!("device/default/unchanged.rs")));
    assert!(stands_in_sums("device.rs", compiled!("device.rs")));
    assert!(stands_in_sums("machine.rs", compiled!("machine.rs")));
    assert!(stands_in_sums("machine/emoji.rs", compiled!("machine/emoji.rs")));
}
