//! The 160 by 80 caption screen for Rust hosts: the calls of the proved core (include/caption.h) on types that keep what
//! its theorems ask of a host.
//!
//! ```
//! use caption::{Fonts, Screen, Sent, Setup};
//!
//! # let font = [0x7e; 2048];
//! let mut screen = Screen::open(&Setup::new())?; // four panels, each owed the whole screen
//! screen.print(b"I was in the hall.")?;
//! screen.flush(&Fonts { ascii16: &font, ..Fonts::default() })?; // font: 16 bytes for each character
//! while let Sent::Line { y, left, right } = screen.send(0)? {
//!     let line = screen.panel(0)?.line(y); // 20 bytes: hand the pixels left to right - 1 to the glass
//!     # assert_eq!((line.len(), left, right), (20, 0, 160));
//! }
//! assert_eq!(screen.panel(0)?, screen.screen());
//! # Ok::<(), caption::Refusal>(())
//! ```
//!
//! The core proves, for every list of calls from an open on, that a pixel at which a panel differs from the screen is owed
//! to that panel or in hand, and that enough sends, [`lines_left`](Screen::lines_left) of them, make both equal
//! (docs/THEOREM.md). It asks that nobody but the calls writes record, memory and panels, and that a panel's buffer goes
//! with its number. A [`Screen`] owns these bytes or borrows them, shows them, and has them written by the calls alone; each
//! [`Panel`] has its number from the open on, and is either driven through a [`Controller`] or sent to directly.
//!
//! So these do not compile:
//!
//! ```compile_fail,E0594
//! let screen = caption::Screen::open(&caption::Setup::new())?;
//! screen.memory()[0x1000] = 0xff; // only calls write memory: `write_byte`, `load`
//! # Ok::<(), caption::Refusal>(())
//! ```
//!
//! ```compile_fail,E0499
//! use caption::Panel;
//!
//! let mut buffer = [0; 1_600];
//! let panels = [Panel::direct_in(&mut buffer), Panel::direct_in(&mut buffer)]; // one buffer, two numbers
//! drop(panels);
//! ```
//!
//! ```compile_fail,E0382
//! use caption::{Controller, Panel};
//!
//! let controller = Controller::new();
//! let panels = [Panel::driven(controller), Panel::driven(controller)]; // one controller, two numbers
//! ```
//!
//! ```compile_fail,E0596
//! use caption::{Command, Controller, Panel, Screen, Setup};
//!
//! let panels = [Panel::driven(Controller::new()), Panel::absent(), Panel::absent(), Panel::absent()];
//! let screen = Screen::open_with(&Setup::new(), panels)?;
//! screen.controller(0)?.command(Command::Clear)?; // behind the driver's back
//! # Ok::<(), caption::Refusal>(())
//! ```
//!
//! ```compile_fail,E0506
//! use caption::{Glass, Panel, Screen, Setup};
//!
//! const GLASS: Glass = Glass::Small;
//! let (mut record, mut memory) = ([0; GLASS.record_bytes()], [0; GLASS.memory_bytes()]);
//! let panels = [Panel::absent(), Panel::absent(), Panel::absent(), Panel::absent()];
//! let mut screen = Screen::open_in(&Setup::new(), &mut record, &mut memory, panels)?;
//! memory[0x1000] = 0xff; // lent to the screen
//! screen.cls()?;
//! # Ok::<(), caption::Refusal>(())
//! ```
//!
//! No heap and no `std` is needed. All `unsafe` code stands in one module of this crate, `calls`.
#![no_std]
#![deny(unsafe_code)]
#![warn(missing_docs)]

mod calls;
mod controller;
mod fonts;
mod glass;
mod modes;
mod panel;
mod picture;
mod place;
mod rect;
mod refusal;
mod screen;
mod setup;

pub use controller::{Command, Controller, Register, Status};
pub use fonts::{ExtraList, Fonts, Full};
pub use glass::{Caller, Glass};
pub use modes::{Cursor, DrawMode, Edge, Fill, PaintMode, PrintMode, ScreenMode, Version};
pub use panel::Panel;
pub use picture::{Differing, Pbm, Picture};
pub use place::{Borrowed, Owned, Place};
pub use rect::{Owed, Rect};
pub use refusal::Refusal;
pub use screen::{LoadError, Screen, Sends, Sent};
pub use setup::{Keys, Setup};
