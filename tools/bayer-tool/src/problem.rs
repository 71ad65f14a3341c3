//! What stops a command.

use std::fmt;
use std::io;

#[derive(Debug)]
pub enum Problem {
    /// The words of the command are not understood.
    Usage(String),
    /// A file is not readable or writable.
    File(String, io::Error),
    /// A file is not what the command takes or writes.
    Form(String, String),
    /// The library refuses what the file holds.
    Refused(String, bayer::Refusal),
    /// The numbers at matching points differ.
    Differs(usize),
}

impl Problem {
    /// The status that the program ends with.
    pub fn status(&self) -> u8 {
        match self {
            Problem::Usage(_) => 2,
            _ => 1,
        }
    }
}

impl fmt::Display for Problem {
    fn fmt(&self, to: &mut fmt::Formatter<'_>) -> fmt::Result {
        match self {
            Problem::Usage(what) => write!(to, "{what}; bayer-tool help tells the commands"),
            Problem::File(name, why) => write!(to, "{name}: {why}"),
            Problem::Form(name, what) => write!(to, "{name}: {what}"),
            Problem::Refused(name, refusal) => write!(to, "{name}: {refusal}"),
            Problem::Differs(count) => write!(to, "{count} entries differ"),
        }
    }
}
