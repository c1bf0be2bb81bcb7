//! Pictures as files.

use crate::look::{HEIGHT, Pixel, View, WIDTH, Why};
use crate::png::png;
use crate::run::Step;
use caption::Picture;
use std::fs;
use std::io;
use std::path::Path;

/// How large a pixel is drawn in PNG files, and how far apart screen and panel stand.
const SCALE: usize = 3;
const GAP: usize = 8;

/// Red, green and blue: between the pictures, then clear and set pixels of each kind.
const PALETTE: [[u8; 3]; 11] = [
    [255, 255, 255],
    [232, 236, 223],
    [24, 32, 26],
    [199, 217, 250],
    [24, 62, 140],
    [181, 203, 244],
    [24, 62, 140],
    [255, 228, 170],
    [122, 78, 0],
    [255, 150, 150],
    [196, 0, 30],
];

/// step-NNN-screen.pbm, and step-NNN-panel-K.pbm for each of the panels.
pub fn write_pbm(folder: &Path, steps: &[(usize, &Step)], panels: &[usize]) -> io::Result<usize> {
    fs::create_dir_all(folder)?;
    for (number, step) in steps {
        fs::write(folder.join(format!("step-{number:03}-screen.pbm")), pbm(step.screen()))?;
        for panel in panels {
            let name = format!("step-{number:03}-panel-{panel}.pbm");
            fs::write(folder.join(name), pbm(step.panels[*panel].picture()))?;
        }
    }
    Ok(steps.len() * (1 + panels.len()))
}

fn pbm(picture: Picture) -> Vec<u8> {
    picture.pbm().collect()
}

/// step-NNN-panel-K.png: the screen, and beside it the panel.
pub fn write_png(folder: &Path, steps: &[(usize, &Step)], panels: &[usize]) -> io::Result<usize> {
    fs::create_dir_all(folder)?;
    for (number, step) in steps {
        for panel in panels {
            let name = format!("step-{number:03}-panel-{panel}.png");
            fs::write(folder.join(name), side_by_side(step, *panel))?;
        }
    }
    Ok(steps.len() * panels.len())
}

fn side_by_side(step: &Step, panel: usize) -> Vec<u8> {
    png((2 * WIDTH + GAP) * SCALE, HEIGHT * SCALE, &PALETTE, |x, y| {
        let (x, y) = (x / SCALE, y / SCALE);
        match x {
            0..WIDTH => colour(View::Screen { panel }.pixel(step, x, y)),
            _ if x < WIDTH + GAP => 0,
            _ => colour(View::Panel { panel }.pixel(step, x - WIDTH - GAP, y)),
        }
    })
}

fn colour(pixel: Pixel) -> u8 {
    let clear = match pixel.why {
        Why::Plain => 1,
        Why::Owed { odd: false } => 3,
        Why::Owed { odd: true } => 5,
        Why::InHand => 7,
        Why::Differs => 9,
    };
    clear + u8::from(pixel.set)
}
