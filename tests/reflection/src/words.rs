//! The words and signs of a source, without comments, texts and characters.

/// A word, a number, or a sign, and its line, counted from 0.
#[derive(Clone, Copy)]
pub struct Word<'a> {
    pub text: &'a str,
    pub line: usize,
}

impl Word<'_> {
    /// Whether it is a name or a keyword.
    pub fn is_name(&self) -> bool {
        self.text
            .starts_with(|c: char| c.is_alphabetic() || c == '_')
    }
}

/// Signs of more than one character that must not be read as those that they are made of.
const SIGNS: [&str; 5] = ["->", "=>", "&&", "%=", "&="];

/// The words and signs of a source in their order.
pub fn words(source: &str) -> Result<Vec<Word<'_>>, String> {
    let mut found = Vec::new();
    let (mut rest, mut line) = (source, 0);
    while let Some(first) = rest.chars().next() {
        let passed = passed_over(rest, first).ok_or(format!("line {}: no end", line + 1))?;
        let length = if passed > 0 {
            passed
        } else {
            word_length(rest, first)
        };
        let (text, after) = rest.split_at(length);
        if passed == 0 {
            found.push(Word { text, line });
        }
        line += text.matches('\n').count();
        rest = after;
    }
    Ok(found)
}

/// How long what is passed over at the front of `rest` is; None where it has no end.
fn passed_over(rest: &str, first: char) -> Option<usize> {
    if first.is_whitespace() {
        return Some(first.len_utf8());
    }
    if rest.starts_with("//") {
        return Some(rest.find('\n').unwrap_or(rest.len()));
    }
    if rest.starts_with("/*") {
        return comment_length(rest);
    }
    let prefix = ["br", "cr", "r", "b", "c"]
        .into_iter()
        .find(|p| is_text_after(rest, p));
    let start = prefix.unwrap_or("").len();
    match rest[start..].chars().next()? {
        '\'' => Some(start + character_length(&rest[start..])),
        '"' if !prefix.is_some_and(|p| p.ends_with('r')) => {
            escaped_length(&rest[start..], '"').map(|length| start + length)
        }
        '"' | '#' if prefix.is_some() => raw_length(&rest[start..]).map(|length| start + length),
        _ => Some(0),
    }
}

/// Whether `rest` is the prefix of a text or a character, and then that.
fn is_text_after(rest: &str, prefix: &str) -> bool {
    let Some(text) = rest.strip_prefix(prefix) else {
        return false;
    };
    let raw = prefix.ends_with('r') && text.trim_start_matches('#').starts_with('"');
    raw || text.starts_with('"') || (prefix == "b" && text.starts_with('\''))
}

/// The length of a comment with the comments inside it.
fn comment_length(rest: &str) -> Option<usize> {
    let (mut depth, mut at) = (0, 0);
    loop {
        let here = rest.get(at..)?;
        let step = if here.starts_with("/*") || here.starts_with("*/") {
            depth += if here.starts_with("/*") { 1 } else { -1 };
            2
        } else {
            here.chars().next()?.len_utf8()
        };
        at += step;
        if depth == 0 {
            return Some(at);
        }
    }
}

/// The length of a text or a character up to the sign that ends it, behind which a backslash does not stand.
fn escaped_length(rest: &str, end: char) -> Option<usize> {
    let mut escaped = false;
    for (at, c) in rest.char_indices().skip(1) {
        if c == end && !escaped {
            return Some(at + 1);
        }
        escaped = c == '\\' && !escaped;
    }
    None
}

/// The length of a text without escapes, from its first `#` or `"` on.
fn raw_length(rest: &str) -> Option<usize> {
    let marks = rest.len() - rest.trim_start_matches('#').len();
    let end = format!("\"{}", &rest[..marks]);
    let inside = rest.get(marks + 1..)?;
    inside.find(&end).map(|at| marks + 1 + at + end.len())
}

/// The length of a character, and 1 of the sign that begins a lifetime or a label or ends a name of the specifications.
fn character_length(rest: &str) -> usize {
    let mut after = rest.chars().skip(1);
    match (after.next(), after.next()) {
        (Some('\\'), _) => escaped_length(rest, '\'').unwrap_or(1),
        (Some(c), Some('\'')) => 2 + c.len_utf8(),
        _ => 1,
    }
}

/// The length of the word or sign at the front of `rest`.
fn word_length(rest: &str, first: char) -> usize {
    let is_part = |c: char| c.is_alphanumeric() || c == '_';
    if is_part(first) {
        return rest.find(|c| !is_part(c)).unwrap_or(rest.len());
    }
    let sign = SIGNS.into_iter().find(|sign| rest.starts_with(sign));
    sign.map_or(first.len_utf8(), str::len)
}
