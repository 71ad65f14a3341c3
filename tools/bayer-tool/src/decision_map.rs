//! The decision map as a picture: a point for each site in the colour of its decision and, below, a swatch for each code with its number;
//! the same as text, with how many sites have each.

use crate::picture::Picture;
use bayer::Decision;
use std::fmt::Write;

type Colour = [u8; 3];

/// By code; all but grey of Okabe and Ito's set, for eyes that take red for green. Across is warm and down is blue, the lighter of each
/// where the site was weak.
const COLOURS: [(&str, Colour); Decision::ALL.len()] = [
    ("black", [0, 0, 0]),
    ("grey", [200, 200, 200]),
    ("vermilion", [213, 94, 0]),
    ("blue", [0, 114, 178]),
    ("orange", [230, 159, 0]),
    ("sky blue", [86, 180, 233]),
    ("green", [0, 158, 115]),
];

const BLACK: Colour = [0; 3];
const WHITE: Colour = [255; 3];

/// The sides of a swatch, and the empty rows above the swatches.
const SWATCH: usize = 9;
const GAP: usize = 2;

/// The digits of the codes: five rows of three points, the left one highest.
const DIGITS: [[u8; 5]; Decision::ALL.len()] = [
    [0b111, 0b101, 0b101, 0b101, 0b111],
    [0b010, 0b110, 0b010, 0b010, 0b111],
    [0b111, 0b001, 0b111, 0b100, 0b111],
    [0b111, 0b001, 0b111, 0b001, 0b111],
    [0b101, 0b101, 0b111, 0b001, 0b001],
    [0b111, 0b100, 0b111, 0b001, 0b111],
    [0b111, 0b100, 0b111, 0b101, 0b111],
];

fn name_and_colour(decision: Decision) -> (&'static str, Colour) {
    COLOURS[usize::from(decision.code())]
}

pub fn colour(decision: Decision) -> Colour {
    name_and_colour(decision).1
}

/// Black or white, whichever is seen on the colour.
fn ink(colour: Colour) -> Colour {
    let [red, green, blue] = colour.map(u32::from);
    if 299 * red + 587 * green + 114 * blue < 128_000 {
        WHITE
    } else {
        BLACK
    }
}

/// The colour of a point of a swatch, which has the digit of its code in the middle.
fn swatch(decision: Decision, row: usize, column: usize) -> Colour {
    let paper = colour(decision);
    let digit = DIGITS[usize::from(decision.code())];
    let bits = row.checked_sub(2).and_then(|row| digit.get(row));
    match (bits, column) {
        (Some(bits), 3..=5) if bits >> (5 - column) & 1 == 1 => ink(paper),
        _ => paper,
    }
}

/// The map of a frame of this width above the swatches, which stand from left to right by code; what is beside them is white.
pub fn picture(width: usize, decisions: &[Decision]) -> Picture {
    let height = decisions.len() / width;
    let site = |row: usize, column: usize| {
        let inside = row < height && column < width;
        inside.then(|| colour(decisions[row * width + column]))
    };
    let strip = |row: usize, column: usize| {
        let row = row.checked_sub(height + GAP)?;
        let decision = *Decision::ALL.get(column / SWATCH)?;
        Some(swatch(decision, row, column % SWATCH))
    };
    let whole_width = width.max(SWATCH * Decision::ALL.len());
    Picture::form(whole_width, height + GAP + SWATCH, |row, column| {
        let drawn = site(row, column).or_else(|| strip(row, column));
        drawn.unwrap_or(WHITE)
    })
}

/// A line for each decision: its colour, code and words, and how many sites have it.
pub fn legend(decisions: &[Decision]) -> String {
    let mut text = format!(
        "{:20}{:4}  {:27}{:>8}\n",
        "colour", "code", "decision", "sites"
    );
    for decision in Decision::ALL {
        let (name, [red, green, blue]) = name_and_colour(decision);
        let code = decision.code();
        let sites = decisions.iter().filter(|&&found| found == decision).count();
        let _ = writeln!(
            text,
            "{name:10} #{red:02x}{green:02x}{blue:02x}  {code:4}  {decision:27}{sites:8}"
        );
    }
    text
}
