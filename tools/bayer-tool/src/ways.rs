//! The ways of writing a file. Where one fails, the file is as it was before and no other is left.

use std::fs::{self, File, Metadata};
use std::io::{self, ErrorKind, Write};
use std::os::unix::fs::{fchown, FileExt, MetadataExt, OpenOptionsExt};
use std::path::{Path, PathBuf};

/// The mode that a new file is made with, less what the umask takes off.
const BY_UMASK: u32 = 0o666;

/// The mode of a file until it has that of the one that it replaces.
const OWNER_ALONE: u32 = 0o600;

/// How many names of parts are tried.
const MOST_LEFT: u32 = 1000;

/// A file beside the one that it becomes, taken away again unless it has become that.
struct Part {
    path: PathBuf,
    file: File,
}

impl Part {
    /// Under a name that no run which was cut off has left.
    fn beside(path: &Path, mode: u32) -> io::Result<Part> {
        let mut options = File::options();
        options.write(true).create_new(true).mode(mode);
        let own = std::process::id();
        let mut names =
            (0..MOST_LEFT).map(|k| path.with_file_name(format!(".bayer-tool.{own}.{k}.part")));
        let made = names.find_map(|path| match options.open(&path) {
            Err(why) if why.kind() == ErrorKind::AlreadyExists => None,
            made => Some(made.map(|file| Part { path, file })),
        });
        made.unwrap_or_else(|| Err(ErrorKind::AlreadyExists.into()))
    }

    fn fill(&mut self, bytes: &[u8]) -> io::Result<()> {
        self.file.write_all(bytes)?;
        self.file.sync_all()
    }

    fn rename(self, path: &Path) -> io::Result<()> {
        fs::rename(&self.path, path)
    }
}

impl Drop for Part {
    /// Under its own name there is nothing any more once it is renamed.
    fn drop(&mut self) {
        let _ = fs::remove_file(&self.path);
    }
}

/// A device or a FIFO takes the bytes as they come.
pub fn stream(path: &Path, bytes: &[u8]) -> io::Result<()> {
    File::options().write(true).open(path)?.write_all(bytes)
}

/// A new file, there with all its bytes or not at all.
pub fn made(path: &Path, bytes: &[u8]) -> io::Result<()> {
    let mut part = Part::beside(path, BY_UMASK)?;
    part.fill(bytes)?;
    part.rename(path)
}

/// A new file with the owner and the mode of the old one takes its name. Where the system does not let it, the old one
/// is written in place.
pub fn replaced(path: &Path, there: &Metadata, bytes: &[u8]) -> io::Result<()> {
    let owned = Part::beside(path, OWNER_ALONE).and_then(|part| {
        fchown(&part.file, Some(there.uid()), Some(there.gid()))?;
        Ok(part)
    });
    let Ok(mut part) = owned else {
        return in_place(path, bytes);
    };
    part.file.set_permissions(there.permissions())?;
    part.fill(bytes)?;
    part.rename(path).or_else(|_| in_place(path, bytes))
}

/// The file itself, so that it keeps its names: first what lies past its end, as the disk may have no room for it, then
/// what lies before; what is left past the new end is cut off last.
pub fn in_place(path: &Path, bytes: &[u8]) -> io::Result<()> {
    let file = File::options().read(true).write(true).open(path)?;
    let end = file.metadata()?.len();
    let (start, past) = bytes.split_at(end.min(bytes.len() as u64) as usize);
    let mut old = vec![0; start.len()];
    file.read_exact_at(&mut old, 0)?;
    let mut overwritten = 0;
    file.write_all_at(past, end)
        .and_then(|()| file.sync_all())
        .and_then(|()| overwrite(&file, start, &mut overwritten))
        .and_then(|()| file.sync_all())
        .and_then(|()| file.set_len(bytes.len() as u64))
        .map_err(|why| put_back(&file, &old[..overwritten], end, why))
}

/// Writes the bytes from the start on, and counts those that are written.
fn overwrite(file: &File, bytes: &[u8], written: &mut usize) -> io::Result<()> {
    while *written < bytes.len() {
        match file.write_at(&bytes[*written..], *written as u64) {
            Ok(0) => return Err(ErrorKind::WriteZero.into()),
            Ok(count) => *written += count,
            Err(why) if why.kind() == ErrorKind::Interrupted => {}
            Err(why) => return Err(why),
        }
    }
    Ok(())
}

/// The old bytes and the old end. Answers why they are put back, and where that fails too, says so.
fn put_back(file: &File, old: &[u8], end: u64, why: io::Error) -> io::Error {
    let back = file.set_len(end).and_then(|()| file.write_all_at(old, 0));
    match back {
        Ok(()) => why,
        Err(second) => io::Error::new(
            why.kind(),
            format!("{why}; its old bytes could not be put back: {second}"),
        ),
    }
}
