//! Which words are told.

use crate::functions::Placed;
use std::collections::BTreeSet;

/// Operators that take a remainder; `&` does by a power of two where something stands before it.
const OPERATORS: [&str; 3] = ["%", "%=", "&="];

/// Parts of the names of what takes a remainder, as `rem_euclid`, `checked_rem`, `is_multiple_of` and `bitand`.
const PARTS: [&str; 7] = [
    "rem",
    "Rem",
    "RemAssign",
    "multiple",
    "bitand",
    "BitAnd",
    "BitAndAssign",
];

/// Keywords behind which `&` borrows.
const BEFORE_BORROW: [&str; 12] = [
    "as", "break", "dyn", "else", "for", "if", "in", "match", "mut", "return", "where", "while",
];

/// The positions of what is told: remainders, and words that are among the names and declare none.
pub fn marked<'a>(
    words: &'a [Placed<'_>],
    names: &'a BTreeSet<String>,
) -> impl Iterator<Item = usize> + 'a {
    (0..words.len()).filter(move |&at| {
        let text = words[at].word.text;
        let declared = at > 0 && words[at - 1].word.text == "fn";
        takes_remainder(words, at) || (names.contains(text) && !declared)
    })
}

/// The functions in which something is told.
pub fn marking_functions(sources: &[Vec<Placed<'_>>], names: &BTreeSet<String>) -> Vec<String> {
    let found = sources
        .iter()
        .flat_map(|words| marked(words, names).filter_map(|at| words[at].path.last()));
    found.map(|name| name.to_string()).collect()
}

fn takes_remainder(words: &[Placed<'_>], at: usize) -> bool {
    let text = words[at].word.text;
    let by_name = || text.split('_').any(|part| PARTS.contains(&part));
    OPERATORS.contains(&text) || (text == "&" && joins(words, at)) || by_name()
}

/// Whether a value ends before the `&`.
fn joins(words: &[Placed<'_>], at: usize) -> bool {
    let Some(before) = at.checked_sub(1).map(|before| words[before].word.text) else {
        return false;
    };
    let ends_value = |c: char| c.is_alphanumeric() || "_)]}".contains(c);
    before.ends_with(ends_value) && !BEFORE_BORROW.contains(&before)
}
