//! Stand-ins for what the unchanged files import from the root of their own crate.

use crate::machine::EmojiVersion;

pub type HashMap<K, V> = std::collections::HashMap<K, V>;

#[derive(Debug, Clone, Copy, PartialEq, Eq)]
pub enum ScreenMode {
    Text,
    Graph,
}

#[derive(Debug, Clone, Copy, PartialEq, Eq)]
pub enum PrintMode {
    Normal,
    Inverse,
    Flash,
}

/// A file name. No compared call opens a file.
pub struct ByteString(Vec<u8>);

impl From<&[u8]> for ByteString {
    fn from(bytes: &[u8]) -> Self {
        Self(bytes.to_vec())
    }
}

impl ByteString {
    pub fn to_string_lossy(&self, _version: EmojiVersion) -> String {
        String::from_utf8_lossy(&self.0).into_owned()
    }
}

pub mod util {
    pub mod utf16str_ext {
        pub trait Utf16StrExt {}
    }
}
