//! The words of a command: options with a value, options without, and the rest in order.

use crate::problem::Problem;

#[derive(Debug, Default)]
pub struct Arguments {
    pub words: Vec<String>,
    options: Vec<(String, String)>,
    flags: Vec<String>,
}

impl Arguments {
    /// `options` take a value, `flags` none. After `--` every word is one of the rest.
    pub fn parse(words: &[String], options: &[&str], flags: &[&str]) -> Result<Self, Problem> {
        let mut found = Arguments::default();
        let mut left = words.iter();
        while let Some(word) = left.next() {
            if word == "--" {
                found.words.extend(left.cloned());
                break;
            }
            if flags.contains(&word.as_str()) {
                found.flags.push(word.clone());
            } else if options.contains(&word.as_str()) {
                let value = left
                    .next()
                    .ok_or_else(|| Problem::Usage(format!("{word} needs a value")))?;
                if found.option(word).is_some() {
                    return Err(Problem::Usage(format!("{word} is given twice")));
                }
                found.options.push((word.clone(), value.clone()));
            } else if word.starts_with("--") {
                return Err(Problem::Usage(format!("no option {word} here")));
            } else {
                found.words.push(word.clone());
            }
        }
        Ok(found)
    }

    pub fn option(&self, name: &str) -> Option<&str> {
        let found = self.options.iter().find(|option| option.0 == name);
        found.map(|option| option.1.as_str())
    }

    pub fn flag(&self, name: &str) -> bool {
        self.flags.iter().any(|flag| flag == name)
    }

    /// The rest, of which there are exactly these.
    pub fn exactly<const N: usize>(&self, names: [&str; N]) -> Result<[&str; N], Problem> {
        let words: Vec<&str> = self.words.iter().map(String::as_str).collect();
        words
            .try_into()
            .map_err(|_| Problem::Usage(format!("needed are {}", names.join(" and "))))
    }
}

pub const PHASES: [&str; 4] = ["RGGB", "GRBG", "GBRG", "BGGR"];

/// A phase by its number, of which the library refuses those above 3, or by its colours.
pub fn phase(text: &str) -> Result<usize, Problem> {
    let named = PHASES
        .iter()
        .position(|name| name.eq_ignore_ascii_case(text));
    named
        .or_else(|| text.parse().ok())
        .ok_or_else(|| Problem::Usage(format!("no phase {text}")))
}

/// Width and height, as 240x160.
pub fn size(text: &str) -> Result<(usize, usize), Problem> {
    let sides = text.split_once('x');
    sides
        .and_then(|(width, height)| Some((width.parse().ok()?, height.parse().ok()?)))
        .ok_or_else(|| Problem::Usage(format!("{text} is no size such as 240x160")))
}
