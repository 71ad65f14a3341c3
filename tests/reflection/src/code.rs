//! Contracts and ghost items, of which nothing is left in the program.

use crate::words::Word;

/// The words without clauses and ghost items. What has another form than these is left in, and all that stands in a
/// macro and its arguments, where the words of a clause are none.
pub fn without_clauses(words: Vec<Word<'_>>) -> Result<Vec<Word<'_>>, String> {
    let mut left = Vec::new();
    let mut at = 0;
    while let Some(word) = words.get(at) {
        let end = match word.text {
            "requires" | "ensures" => clause_end(&words, at)?,
            "ghost" => ghost_end(&words, at)?,
            _ => at,
        };
        if end > at {
            at = end;
        } else {
            let end = macro_end(&words, at)?;
            left.extend_from_slice(&words[at..end]);
            at = end;
        }
    }
    Ok(left)
}

/// The text of the word at a position.
fn text<'a>(words: &[Word<'a>], at: usize) -> &'a str {
    words.get(at).map_or("", |word| word.text)
}

/// The position after `requires* name { .. }`, of which the star and the name may be left out; `at` where it is none.
fn clause_end(words: &[Word<'_>], at: usize) -> Result<usize, String> {
    let mut open = at + 1;
    open += usize::from(text(words, open) == "*");
    open += usize::from(words.get(open).is_some_and(Word::is_name));
    if text(words, open) == "{" {
        block_end(words, open)
    } else {
        Ok(at)
    }
}

/// The position after `ghost use ..;`, or after `ghost name` with each `: { .. }` and `= { .. }` behind it; `at` where
/// it is none.
fn ghost_end(words: &[Word<'_>], at: usize) -> Result<usize, String> {
    if text(words, at + 1) == "use" {
        let length = words[at..].iter().position(|word| word.text == ";");
        return length
            .map(|length| at + length + 1)
            .ok_or(no_end(words, at));
    }
    let mut end = at + 2;
    while [":", "="].contains(&text(words, end)) && text(words, end + 1) == "{" {
        end = block_end(words, end + 1)?;
    }
    Ok(if end == at + 2 { at } else { end })
}

/// The position after the arguments of a macro, or its rules, whose `!` is at `at`; the next position where it is none.
fn macro_end(words: &[Word<'_>], at: usize) -> Result<usize, String> {
    let before = at.checked_sub(1).map_or("", |before| text(words, before));
    let open = at + 1 + usize::from(before == "macro_rules");
    let has_arguments = ["(", "[", "{"].contains(&text(words, open));
    if text(words, at) == "!" && has_arguments {
        block_end(words, open)
    } else {
        Ok(at + 1)
    }
}

/// The position after the bracket that closes the one at `open`.
fn block_end(words: &[Word<'_>], open: usize) -> Result<usize, String> {
    let opens = text(words, open);
    let closes = match opens {
        "(" => ")",
        "[" => "]",
        _ => "}",
    };
    let mut depth = 0;
    for (at, word) in words.iter().enumerate().skip(open) {
        depth += usize::from(word.text == opens);
        depth -= usize::from(word.text == closes);
        if depth == 0 {
            return Ok(at + 1);
        }
    }
    Err(no_end(words, open))
}

fn no_end(words: &[Word<'_>], at: usize) -> String {
    format!("line {}: no end", words[at].line + 1)
}
