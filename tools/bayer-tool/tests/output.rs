//! Files as they are written: what stands at the name stays what it was, with the new bytes.

use bayer_tool::output::Output;
use std::fs::{self, File, Permissions};
use std::os::unix::fs::{chown, symlink, MetadataExt, PermissionsExt};
use std::path::{Path, PathBuf};

/// A folder for one test, outside of the checkout, taken away again.
struct Folder(PathBuf);

impl Folder {
    fn new(test: &str) -> Self {
        let name = format!("bayer-tool-{}-{test}", std::process::id());
        let path = std::env::temp_dir().join(name);
        fs::create_dir(&path).unwrap();
        Folder(path)
    }

    /// A file with these bytes, or only its path.
    fn file(&self, name: &str, bytes: impl AsRef<[u8]>) -> PathBuf {
        fs::write(self.0.join(name), bytes).unwrap();
        self.0.join(name)
    }

    fn names(&self) -> Vec<String> {
        let entries = fs::read_dir(&self.0).unwrap();
        let mut names: Vec<String> = entries
            .map(|entry| entry.unwrap().file_name().into_string().unwrap())
            .collect();
        names.sort();
        names
    }
}

impl Drop for Folder {
    fn drop(&mut self) {
        fs::remove_dir_all(&self.0).unwrap();
    }
}

/// Writes the bytes at this name, or tells why not.
fn write(path: &Path, bytes: impl AsRef<[u8]>) -> Result<(), String> {
    let output = Output::of(path.to_str().unwrap(), None);
    output
        .and_then(|output| output.write(bytes.as_ref()))
        .map_err(|problem| problem.to_string())
}

fn mode(path: &Path) -> u32 {
    fs::metadata(path).unwrap().mode() & 0o7777
}

#[test]
fn links_stay_and_the_file_that_they_lead_to_is_written() {
    let folder = Folder::new("links");
    let file = folder.file("file", "old");
    fs::create_dir(folder.0.join("inner")).unwrap();
    let (inner, outer) = (folder.0.join("inner/link"), folder.0.join("link"));
    symlink("../file", &inner).unwrap();
    symlink("inner/link", &outer).unwrap();
    write(&outer, "new").unwrap();
    assert_eq!(fs::read_link(&outer).unwrap(), Path::new("inner/link"));
    assert_eq!(fs::read_link(&inner).unwrap(), Path::new("../file"));
    assert!(fs::symlink_metadata(&file).unwrap().is_file());
    assert_eq!(fs::read(&file).unwrap(), b"new");
    assert_eq!(folder.names(), ["file", "inner", "link"]);
}

#[test]
fn a_link_to_nothing_stays_and_the_file_is_made() {
    let folder = Folder::new("dangling");
    let link = folder.0.join("link");
    symlink("file", &link).unwrap();
    write(&link, "new").unwrap();
    assert_eq!(fs::read_link(&link).unwrap(), Path::new("file"));
    assert_eq!(fs::read(folder.0.join("file")).unwrap(), b"new");
    assert_eq!(folder.names(), ["file", "link"]);
}

#[test]
fn links_that_lead_to_each_other_are_an_error() {
    let folder = Folder::new("circle");
    let (one, other) = (folder.0.join("one"), folder.0.join("other"));
    symlink("other", &one).unwrap();
    symlink("one", &other).unwrap();
    let why = write(&one, "new").unwrap_err();
    assert!(why.ends_with("symbolic links (os error 40)"), "{why}");
    assert_eq!(folder.names(), ["one", "other"]);
}

#[test]
fn the_mode_is_kept_and_a_new_file_has_that_of_the_umask() {
    let folder = Folder::new("modes");
    for kept in [0o600, 0o640, 0o666, 0o755, 0o200] {
        let file = folder.file("file", "old");
        fs::set_permissions(&file, Permissions::from_mode(kept)).unwrap();
        write(&file, "new").unwrap();
        assert_eq!(mode(&file), kept, "{kept:o}");
        fs::set_permissions(&file, Permissions::from_mode(0o600)).unwrap();
        assert_eq!(fs::read(&file).unwrap(), b"new");
    }
    let (new, plain) = (folder.0.join("new"), folder.0.join("plain"));
    File::create(&plain).unwrap();
    write(&new, "new").unwrap();
    assert_eq!(mode(&new), mode(&plain));
    assert_eq!(folder.names(), ["file", "new", "plain"]);
}

/// Only root can give a file away; for others it stays their own.
#[test]
fn the_owner_is_kept() {
    let folder = Folder::new("owner");
    let file = folder.file("file", "old");
    let _ = chown(&file, Some(1), Some(2));
    let owner = |path: &Path| {
        let there = fs::metadata(path).unwrap();
        (there.uid(), there.gid())
    };
    let before = owner(&file);
    write(&file, "new").unwrap();
    assert_eq!(owner(&file), before);
    assert_eq!(fs::read(&file).unwrap(), b"new");
}

#[test]
fn a_file_with_two_names_keeps_both() {
    let folder = Folder::new("names");
    for new in [
        "",
        "short",
        "as long as before",
        "longer than it was before",
    ] {
        let file = folder.file("file", "so long as before");
        let other = folder.0.join("other");
        fs::hard_link(&file, &other).unwrap();
        let number = fs::metadata(&file).unwrap().ino();
        write(&file, new).unwrap();
        for path in [&file, &other] {
            assert_eq!(fs::metadata(path).unwrap().ino(), number);
            assert_eq!(fs::read(path).unwrap(), new.as_bytes());
        }
        assert_eq!(folder.names(), ["file", "other"]);
        fs::remove_file(&other).unwrap();
    }
}

/// A file with one name is another one afterwards: no reader sees it half written.
#[test]
fn a_file_with_one_name_is_replaced() {
    let folder = Folder::new("replaced");
    let file = folder.file("file", "the old bytes");
    let mut before = File::open(&file).unwrap();
    write(&file, "new").unwrap();
    assert_eq!(
        std::io::read_to_string(&mut before).unwrap(),
        "the old bytes"
    );
    assert_eq!(fs::read(&file).unwrap(), b"new");
}

#[test]
fn what_nobody_may_write_is_refused() {
    let folder = Folder::new("read-only");
    let file = folder.file("file", "old");
    let (link, other) = (folder.0.join("link"), folder.0.join("other"));
    symlink("file", &link).unwrap();
    for names in [1, 2] {
        fs::set_permissions(&file, Permissions::from_mode(0o444)).unwrap();
        for path in [&file, &link] {
            let why = format!("{}: is read-only", path.display());
            assert_eq!(write(path, "new"), Err(why));
        }
        assert_eq!(fs::read(&file).unwrap(), b"old");
        assert_eq!(mode(&file), 0o444);
        assert_eq!(fs::metadata(&file).unwrap().nlink(), names);
        let _ = fs::hard_link(&file, &other);
    }
}

#[test]
fn a_folder_is_no_output() {
    let folder = Folder::new("folder");
    let inner = folder.0.join("inner");
    fs::create_dir(&inner).unwrap();
    for mode in [0o755, 0o555] {
        fs::set_permissions(&inner, Permissions::from_mode(mode)).unwrap();
        let why = format!("{}: Is a directory (os error 21)", inner.display());
        assert_eq!(write(&inner, "new"), Err(why));
    }
    assert_eq!(folder.names(), ["inner"]);
}
