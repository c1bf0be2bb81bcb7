//! The model of the script program as a program of its own: a stand-in for `panelrun`.

use std::io::{self, Read, Write};

fn main() -> io::Result<()> {
    let mut script = vec![];
    io::stdin().read_to_end(&mut script)?;
    io::stdout().write_all(&model::run_script(&script))
}
