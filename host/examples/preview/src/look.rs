//! How a pixel is shown: set or clear, and why it is not plain.

use crate::run::{Seen, Step};
use caption::Glass;

pub const WIDTH: usize = Glass::Small.width() as usize;
pub const HEIGHT: usize = Glass::Small.height() as usize;
pub const BAND: usize = HEIGHT / Glass::Small.bands();

#[derive(Debug, Clone, Copy, PartialEq, Eq)]
pub enum Why {
    Plain,
    /// In the rectangle that its band is owed. Bands that follow each other look different.
    Owed {
        odd: bool,
    },
    InHand,
    /// Screen and panel differ here.
    Differs,
}

#[derive(Debug, Clone, Copy, PartialEq, Eq)]
pub struct Pixel {
    pub set: bool,
    pub why: Why,
}

/// What is shown beside each other.
#[derive(Debug, Clone, Copy, PartialEq, Eq)]
pub enum View {
    /// The screen, as one panel is owed it.
    Screen {
        panel: usize,
    },
    Panel {
        panel: usize,
    },
    /// The pixels at which both differ.
    Difference {
        panel: usize,
    },
}

impl View {
    pub fn title(self) -> String {
        match self {
            Self::Screen { .. } => "screen".to_string(),
            Self::Panel { panel } => format!("panel {panel}"),
            Self::Difference { panel } => format!("differs on panel {panel}"),
        }
    }

    pub fn pixel(self, step: &Step, x: usize, y: usize) -> Pixel {
        let (Self::Screen { panel } | Self::Panel { panel } | Self::Difference { panel }) = self;
        let (x, y) = (x as u16, y as u16);
        let seen = &step.panels[panel];
        let (on_screen, on_panel) = (step.screen().pixel(x, y), seen.picture().pixel(x, y));
        let why = if on_screen != on_panel { Why::Differs } else { why(seen, x, y) };
        let set = match self {
            Self::Screen { .. } => on_screen,
            Self::Panel { .. } => on_panel,
            Self::Difference { .. } => on_screen != on_panel,
        };
        Pixel { set, why }
    }
}

/// Of a pixel that is alike on both.
fn why(seen: &Seen, x: u16, y: u16) -> Why {
    let band = usize::from(y) / BAND;
    if seen.in_hand.contains(x, y) {
        Why::InHand
    } else if seen.owed[band].contains(x, y) {
        Why::Owed { odd: band % 2 == 1 }
    } else {
        Why::Plain
    }
}
