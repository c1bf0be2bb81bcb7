//! How much of the time of the Rust side, or of the core's own where the name says so, a row may take, where a limit was set.

/// A call that only tests and stores, and a send, against plain Rust with the same tests.
pub const ENTRY: f64 = 1.2;
pub const SEND: f64 = 1.2;
pub const BOX: f64 = 1.1;
pub const LINE: f64 = 1.3;
pub const CIRCLE: f64 = 1.3;
/// One row of text, single bytes or pairs, and a whole page. The reference prints ten pairs in some
/// 32 ns, of which the core's entry alone takes two thirds.
pub const PRINT_ROW: f64 = 1.2;
pub const PRINT_PAIRS: f64 = 1.4;
pub const PRINT_PAGE: f64 = 1.2;
pub const FLUSH_EMPTY_TEXT: f64 = 1.5;
/// A full page with an extra list.
pub const FLUSH_WITH_LIST: f64 = 1.2;
/// A bitmap of 64 by 64 by bytes, against the core's pixel painter.
pub const BY_BYTES_ALIGNED: f64 = 0.2;
pub const BY_BYTES_ODD: f64 = 0.33;
/// The whole screen by bytes, against the core's entry and a copy of 1,600 bytes.
pub const BY_BYTES_SCREEN: f64 = 4.0;
/// A line driven through the device, or idle, against the core's direct send.
pub const DRIVE: f64 = 3.0;
