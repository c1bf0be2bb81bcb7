//! Drives reference, model and core with the same lists of calls and compares what they answer
//! and leave.

pub mod bands;
pub mod core_side;
pub mod device;
pub mod exhaustive;
pub mod judge;
pub mod list;
pub mod progress;
pub mod random;
pub mod replay;
pub mod run;
pub mod scripts;
pub mod shrink;
pub mod tally;
