//! Stand-in for `widestring`: machine names, which no compared call reads, are plain strings.

pub type Utf16Str = str;
pub type Utf16String = String;
