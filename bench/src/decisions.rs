//! Document 02, A1: the codes of the decision map.

pub const MEASURED: u8 = 0;
pub const EQUAL: u8 = 1;
pub const STRONG_ACROSS: u8 = 2;
pub const STRONG_DOWN: u8 = 3;
pub const WEAK_ACROSS: u8 = 4;
pub const WEAK_DOWN: u8 = 5;
pub const WEAK_TO_MEAN: u8 = 6;

/// A red or blue site between the passes, where the first one left it weak.
pub const UNDECIDED: u8 = 0;
