//! Tells every line of develop's code that reflects a position or takes a remainder, and every line that calls for one
//! on the way up to develop.

mod code;
mod crates;
mod functions;
mod marks;
mod words;

use crates::Source;
use functions::Placed;
use std::collections::BTreeSet;
use std::fs;
use std::path::Path;

/// The crate whose code, with that of all crates below it, is read.
const TOP: &str = "develop";

/// What reflects a position: whatever names one of these is told, and so is what names a function in which something is
/// told.
const REFLECTING: [&str; 2] = ["folded", "reflected"];

/// The lines `crate function: line` of the repository at `root`, in the order of crates.txt.
pub fn told(root: &Path) -> Result<String, String> {
    let file = root.join("crates.txt");
    let text = fs::read_to_string(&file).map_err(|why| format!("{}: {why}", file.display()))?;
    let sources = crates::sources(root, &crates::below(&text, TOP)?)?;
    let mut names: BTreeSet<String> = REFLECTING.map(String::from).into();
    let mut known = 0;
    let placed = placed_words(&sources)?;
    while known < names.len() {
        known = names.len();
        names.extend(marks::marking_functions(&placed, &names));
    }
    let of_each = sources.iter().zip(&placed);
    Ok(of_each
        .map(|(source, words)| printed(source, words, &names))
        .collect())
}

/// The words of each source, each with the function in which it stands.
fn placed_words(sources: &[Source]) -> Result<Vec<Vec<Placed<'_>>>, String> {
    let placed = sources.iter().map(|source| {
        words::words(&source.text)
            .and_then(code::without_clauses)
            .and_then(functions::placed)
            .map_err(|why| format!("{}: {why}", source.path.display()))
    });
    placed.collect()
}

/// A line for each line of a source in which a word is told.
fn printed(source: &Source, words: &[Placed<'_>], names: &BTreeSet<String>) -> String {
    let lines: Vec<_> = source.text.lines().collect();
    let found: BTreeSet<_> = marks::marked(words, names)
        .map(|at| (words[at].word.line, words[at].function()))
        .collect();
    let print = |(line, function): (usize, String)| {
        format!("{} {function}: {}\n", source.name, lines[line].trim())
    };
    found.into_iter().map(print).collect()
}
