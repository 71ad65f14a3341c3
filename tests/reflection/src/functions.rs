//! In which function each word stands.

use crate::words::Word;

/// A word, and the modules, types, traits, functions and macros around it, from the outermost on.
pub struct Placed<'a> {
    pub word: Word<'a>,
    pub path: Vec<&'a str>,
}

impl Placed<'_> {
    /// The path as it is printed.
    pub fn function(&self) -> String {
        if self.path.is_empty() {
            return "outside of functions".to_string();
        }
        self.path.join("::")
    }
}

/// An item whose block has not begun.
struct Begun<'a> {
    name: &'a str,
    depth: usize,
}

/// The words with their places.
pub fn placed(words: Vec<Word<'_>>) -> Result<Vec<Placed<'_>>, String> {
    let mut around = Around::default();
    let mut found = Vec::new();
    for (at, &word) in words.iter().enumerate() {
        around.step(&words[at..])?;
        let path = around.path();
        found.push(Placed { word, path });
    }
    if around.open.is_empty() {
        Ok(found)
    } else {
        Err("a bracket is not closed".to_string())
    }
}

/// What stands around a word: the brackets that are open, each with the name of the item whose block it is, and an item
/// that has begun.
#[derive(Default)]
struct Around<'a> {
    open: Vec<Option<&'a str>>,
    begun: Option<Begun<'a>>,
}

impl<'a> Around<'a> {
    /// Takes the first of the words.
    fn step(&mut self, words: &[Word<'a>]) -> Result<(), String> {
        let depth = self.open.len();
        match words[0].text {
            "fn" | "mod" | "trait" | "impl" | "macro_rules" if self.begun.is_none() => {
                self.begun = item_name(words).map(|name| Begun { name, depth });
            }
            ";" => drop(self.ended()),
            "{" => {
                let name = self.ended();
                self.open.push(name);
            }
            "(" | "[" => self.open.push(None),
            "}" | ")" | "]" => {
                self.ended();
                self.open.pop().ok_or("a bracket is closed twice")?;
            }
            _ => {}
        }
        Ok(())
    }

    /// The name of the item that has begun between these brackets, which is then over or in its block.
    fn ended(&mut self) -> Option<&'a str> {
        let depth = self.open.len();
        let is_here = |begun: &Begun| begun.depth == depth;
        if !self.begun.as_ref().is_some_and(is_here) {
            return None;
        }
        self.begun.take().map(|begun| begun.name)
    }

    fn path(&self) -> Vec<&'a str> {
        let begun = self.begun.as_ref().map(|begun| begun.name);
        self.open.iter().copied().flatten().chain(begun).collect()
    }
}

/// The name of the item whose keyword is the first word; of an `impl` the type. A `fn` without a name is a type.
fn item_name<'a>(words: &[Word<'a>]) -> Option<&'a str> {
    let name = match words[0].text {
        "impl" => return impl_type(&words[1..]),
        "macro_rules" => words.get(2),
        _ => words.get(1),
    };
    name.filter(|word| word.is_name()).map(|word| word.text)
}

/// The type of an `impl`: the last word before `where` or the block that stands between no angle brackets.
fn impl_type<'a>(words: &[Word<'a>]) -> Option<&'a str> {
    let mut depth = 0;
    let mut last = None;
    for word in words {
        match word.text {
            "{" | "where" => break,
            "<" => depth += 1,
            ">" => depth -= 1,
            _ if depth == 0 && word.is_name() => last = Some(word.text),
            _ => {}
        }
    }
    last
}
