//! Stand-in for the source's own `util`: there is no machine file to load.

pub mod config {
    use std::io;

    pub fn load_config_file(_name: &str) -> io::Result<String> {
        Err(io::Error::other("no machine file"))
    }
}
