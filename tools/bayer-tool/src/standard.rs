//! `-` in place of a file's name: standard input where a command reads, standard output where it writes.

use std::fs::File;
use std::io;
use std::os::fd::AsFd;

pub const WORD: &str = "-";

/// A standard stream as a file.
pub fn file(stream: impl AsFd) -> io::Result<File> {
    let descriptor = stream.as_fd().try_clone_to_owned()?;
    Ok(File::from(descriptor))
}
