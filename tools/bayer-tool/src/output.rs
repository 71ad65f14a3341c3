//! What a command writes: a file, a stream, or lines of text.

use crate::input::Input;
use crate::problem::Problem;
use crate::standard;
use crate::ways;
use std::fs::{self, File, Metadata};
use std::io::{self, ErrorKind, Write};
use std::os::unix::fs::{FileTypeExt, MetadataExt};
use std::path::{Path, PathBuf};

/// The mode's bits of those who may write.
const WRITERS: u32 = 0o222;

/// What stands at the name that a command is given to write, and so the way in which it is written.
#[derive(Debug)]
enum Target {
    /// `-`, or a name of the file that standard output is.
    Standard,
    /// A device or a FIFO.
    Stream,
    /// A regular file that has other names too, or none.
    Shared,
    /// A regular file with one name: this one, which is where links lead.
    Single(PathBuf, Metadata),
    /// Nothing: the name at which a file is made, which is where links lead.
    Nothing(PathBuf),
}

/// What a command is given to write, looked at before it begins.
#[derive(Debug)]
pub struct Output {
    word: String,
    target: Target,
}

impl Output {
    /// The file of this name, or by `-` standard output, unless it is what the command reads or may not be written.
    pub fn of(word: &str, from: Option<Input>) -> Result<Self, Problem> {
        let failed = |why| Problem::File(name(word).into(), why);
        let there = found(word).map_err(failed)?;
        let is_it = |from: &Input| there.as_ref().is_some_and(|there| is_read(there, *from));
        if let Some(from) = from.filter(is_it) {
            let what = format!("the output {} is the input {}", name(word), from.name());
            return Err(Problem::Usage(what));
        }
        let target = Target::of(word, there).map_err(failed)?;
        Ok(Output {
            word: word.into(),
            target,
        })
    }

    /// Writes the bytes: all of them, or a file is as it was before.
    pub fn write(&self, bytes: &[u8]) -> Result<(), Problem> {
        let written = match &self.target {
            Target::Standard => {
                standard::file(io::stdout()).and_then(|mut out| out.write_all(bytes))
            }
            Target::Stream => ways::stream(Path::new(&self.word), bytes),
            Target::Shared => ways::in_place(Path::new(&self.word), bytes),
            Target::Single(path, there) => ways::replaced(path, there, bytes),
            Target::Nothing(path) => ways::made(path, bytes),
        };
        written.map_err(|why| Problem::File(name(&self.word).into(), why))
    }

    /// Prints what a command tells besides: to standard error where the bytes go to standard output.
    pub fn print_beside(&self, text: &str) -> Result<(), Problem> {
        match self.target {
            Target::Standard => print_on(io::stderr(), "standard error", text),
            _ => print(text),
        }
    }
}

impl Target {
    fn of(word: &str, there: Option<Metadata>) -> io::Result<Self> {
        let Some(there) = there else {
            return Ok(Target::Nothing(followed(word)));
        };
        if same(&there, &standard::file(io::stdout())?.metadata()?) {
            return Ok(Target::Standard);
        }
        if there.mode() & WRITERS == 0 && !there.is_dir() {
            return Err(io::Error::new(ErrorKind::PermissionDenied, "is read-only"));
        }
        if !there.is_file() && !there.is_dir() {
            return Ok(Target::Stream);
        }
        // The system refuses here what may not be written, a folder among them.
        File::options().write(true).open(word)?;
        let path = followed(word);
        let named = fs::symlink_metadata(&path).is_ok_and(|named| same(&named, &there));
        Ok(if there.nlink() == 1 && named {
            Target::Single(path, there)
        } else {
            Target::Shared
        })
    }
}

/// What a line calls it.
fn name(word: &str) -> &str {
    if word == standard::WORD {
        "standard output"
    } else {
        word
    }
}

/// What the system tells of the file, if there is one.
fn found(word: &str) -> io::Result<Option<Metadata>> {
    if word == standard::WORD {
        return standard::file(io::stdout())?.metadata().map(Some);
    }
    match fs::metadata(word) {
        Err(why) if why.kind() == ErrorKind::NotFound => Ok(None),
        there => there.map(Some),
    }
}

/// Where the links lead that a name is of.
fn followed(word: &str) -> PathBuf {
    let mut path = PathBuf::from(word);
    while let Ok(next) = fs::read_link(&path) {
        path.pop();
        path.push(next);
    }
    path
}

/// Whether two names are of one file.
fn same(one: &Metadata, other: &Metadata) -> bool {
    (one.dev(), one.ino()) == (other.dev(), other.ino())
}

/// Whether what is written there is what the input reads: not so of a terminal or a socket, which have two directions.
fn is_read(there: &Metadata, from: Input) -> bool {
    let kind = there.file_type();
    let holds = kind.is_file() || kind.is_block_device() || kind.is_fifo();
    holds && from.metadata().is_ok_and(|read| same(&read, there))
}

/// Prints to standard output.
pub fn print(text: &str) -> Result<(), Problem> {
    print_on(io::stdout(), "standard output", text)
}

fn print_on(mut stream: impl Write, name: &str, text: &str) -> Result<(), Problem> {
    stream
        .write_all(text.as_bytes())
        .and_then(|()| stream.flush())
        .map_err(|why| Problem::File(name.into(), why))
}
