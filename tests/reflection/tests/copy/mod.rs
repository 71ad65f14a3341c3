//! A copy of crates.txt and the crates' code, in which something is planted. It is gone after its test.

use std::fs;
use std::path::{Path, PathBuf};

const REPOSITORY: &str = concat!(env!("CARGO_MANIFEST_DIR"), "/../..");

/// The copy. Each test has its own, by its name.
pub struct Copy(PathBuf);

impl Copy {
    pub fn new(name: &str) -> Self {
        let to = Path::new(env!("CARGO_TARGET_TMPDIR")).join(name);
        let from = Path::new(REPOSITORY);
        let _ = fs::remove_dir_all(&to);
        fs::create_dir_all(&to).unwrap();
        fs::copy(from.join("crates.txt"), to.join("crates.txt")).unwrap();
        for entry in fs::read_dir(from.join("crates")).unwrap() {
            let code = Path::new("crates")
                .join(entry.unwrap().file_name())
                .join("src");
            copy_folder(&from.join(&code), &to.join(&code));
        }
        Copy(to)
    }

    /// Puts `new` in the place of `old`, which stands once in the file.
    pub fn replace(&self, file: &str, old: &str, new: &str) {
        let path = self.0.join(file);
        let text = fs::read_to_string(&path).unwrap();
        assert_eq!(text.matches(old).count(), 1, "{old} in {file}");
        fs::write(path, text.replacen(old, new, 1)).unwrap();
    }

    /// Adds text at the end of a file, which is made where there is none.
    pub fn append(&self, file: &str, text: &str) {
        let path = self.0.join(file);
        fs::create_dir_all(path.parent().unwrap()).unwrap();
        let before = fs::read_to_string(&path).unwrap_or_default();
        fs::write(path, before + text).unwrap();
    }

    pub fn told(&self) -> Result<String, String> {
        reflection::told(&self.0)
    }

    /// The lines that are told of the copy and not of the repository.
    pub fn new_lines(&self) -> Vec<String> {
        let before = reflection::told(Path::new(REPOSITORY)).unwrap();
        let told = self.told().unwrap();
        let is_new = |line: &&str| !before.lines().any(|old| old == *line);
        told.lines().filter(is_new).map(String::from).collect()
    }
}

impl Drop for Copy {
    fn drop(&mut self) {
        let _ = fs::remove_dir_all(&self.0);
    }
}

fn copy_folder(from: &Path, to: &Path) {
    fs::create_dir_all(to).unwrap();
    for entry in fs::read_dir(from).unwrap() {
        let entry = entry.unwrap();
        let (path, copy) = (entry.path(), to.join(entry.file_name()));
        if path.is_dir() {
            copy_folder(&path, &copy);
        } else {
            fs::copy(path, copy).unwrap();
        }
    }
}
