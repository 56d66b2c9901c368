//! The files of the current folder.

use std::fs;
use std::io::{ErrorKind, Write};
use std::process::exit;

/// A missing file is `None`; any other trouble ends the program with status 1 and nothing on standard output.
pub fn read(name: &str) -> Option<Vec<u8>> {
    match fs::read(name) {
        Ok(bytes) => Some(bytes),
        Err(error) if error.kind() == ErrorKind::NotFound => None,
        Err(error) => {
            eprintln!("{name}: {error}");
            exit(1)
        }
    }
}

pub fn print(text: &str) {
    if let Err(error) = std::io::stdout().lock().write_all(text.as_bytes()) {
        eprintln!("{error}");
        exit(1)
    }
}
