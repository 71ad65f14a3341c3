//! What a command reads: a file, or standard input.

use crate::problem::Problem;
use crate::standard;
use bayer::Refusal;
use std::fs::{self, File, Metadata};
use std::io::{self, Read};

#[derive(Clone, Copy, Debug)]
pub struct Input<'a> {
    word: &'a str,
}

impl<'a> Input<'a> {
    /// The file of this name; `-` is standard input.
    pub fn of(word: &'a str) -> Self {
        Input { word }
    }

    fn is_standard(self) -> bool {
        self.word == standard::WORD
    }

    /// What a line calls it.
    pub fn name(self) -> &'a str {
        if self.is_standard() {
            "standard input"
        } else {
            self.word
        }
    }

    /// What the system tells of it, without a file being opened.
    pub fn metadata(self) -> io::Result<Metadata> {
        if self.is_standard() {
            standard::file(io::stdin())?.metadata()
        } else {
            fs::metadata(self.word)
        }
    }

    fn open(self) -> io::Result<File> {
        if self.is_standard() {
            standard::file(io::stdin())
        } else {
            File::open(self.word)
        }
    }

    /// At most `most` bytes of it.
    pub fn read(self, most: u64) -> Result<Vec<u8>, Problem> {
        let mut bytes = Vec::new();
        let read = self
            .open()
            .and_then(|file| file.take(most).read_to_end(&mut bytes));
        match read {
            Ok(_) => Ok(bytes),
            Err(why) => Err(Problem::File(self.name().into(), why)),
        }
    }

    /// The library refuses what it holds.
    pub fn refused(self, why: Refusal) -> Problem {
        Problem::Refused(self.name().into(), why)
    }
}
