//! Which crates there are, and the text of each.

use std::fs;
use std::path::{Path, PathBuf};

/// A file of a crate.
pub struct Source {
    pub name: String,
    pub path: PathBuf,
    pub text: String,
}

/// The crate `top` and all below it, in the order of crates.txt.
pub fn below(crates_txt: &str, top: &str) -> Result<Vec<String>, String> {
    let crates: Vec<_> = crates_txt.lines().filter_map(name_and_crates).collect();
    let mut found = vec![top];
    let mut next = 0;
    while let Some(&name) = found.get(next) {
        let line = crates.iter().find(|line| line.0 == name);
        let (_, under) = line.ok_or(format!("crates.txt has no {name}"))?;
        let new = under.split_whitespace().filter(|c| !found.contains(c));
        found.extend(new.collect::<Vec<_>>());
        next += 1;
    }
    let names = crates.iter().map(|line| line.0);
    Ok(names
        .filter(|name| found.contains(name))
        .map(String::from)
        .collect())
}

/// The name and the crates that it stands on, of a line `name settings ..: crates`.
fn name_and_crates(line: &str) -> Option<(&str, &str)> {
    let (head, crates) = line.split_once(':').unwrap_or((line, ""));
    head.split_whitespace().next().map(|name| (name, crates))
}

/// The files of the crates, of each in the order of their paths.
pub fn sources(root: &Path, names: &[String]) -> Result<Vec<Source>, String> {
    let of_each = names.iter().map(|name| files(root, name));
    Ok(of_each
        .collect::<Result<Vec<_>, _>>()?
        .into_iter()
        .flatten()
        .collect())
}

fn files(root: &Path, name: &str) -> Result<Vec<Source>, String> {
    let mut paths = Vec::new();
    add_files(&root.join("crates").join(name).join("src"), &mut paths)?;
    paths.sort();
    let read = |path: PathBuf| {
        let text = fs::read_to_string(&path).map_err(|why| format!("{}: {why}", path.display()))?;
        let name = name.to_string();
        Ok(Source { name, path, text })
    };
    paths.into_iter().map(read).collect()
}

/// Adds every file of the language in the folder and in those inside it.
fn add_files(folder: &Path, paths: &mut Vec<PathBuf>) -> Result<(), String> {
    let failed = |why| format!("{}: {why}", folder.display());
    for entry in fs::read_dir(folder).map_err(failed)? {
        let path = entry.map_err(failed)?.path();
        if path.is_dir() {
            add_files(&path, paths)?;
        } else if path.extension().is_some_and(|extension| extension == "rt") {
            paths.push(path);
        }
    }
    Ok(())
}
