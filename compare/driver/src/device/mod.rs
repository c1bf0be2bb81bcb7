//! The glass controller and its line driver: lists of register and driver calls, with calls on the screen
//! between, given to model and core; and driven lines held to direct sends.

mod events;
pub mod exhaustive;
pub mod judge;
mod laws;
pub mod list;
pub mod random;
mod registers;
pub mod run;
pub mod shrink;
mod sides;
pub mod tally;
