//! Random lists of calls, biased to edges. The same seed gives the same lists.

mod bitmaps;
mod calls;
mod edges;
mod lendings;
mod lists;
mod numbers;
mod records;
mod source;
mod texts;

pub use lists::list;
pub use numbers::Windows;
pub use source::Random;
