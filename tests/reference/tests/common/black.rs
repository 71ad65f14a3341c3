//! Black levels, and frames that are accepted at one.

use super::{frame, Generator, Kind};
use reference::sites::Frame;

/// The ends of what is admitted, and the levels where a sample of 0 is the darkest or one too dark.
pub const LEVELS: [usize; 6] = [0, 1, 64, 65, 254, 255];

/// Levels above what is admitted, some of them small where the upper bits are cut.
pub const TOO_HIGH: [usize; 8] = [
    256,
    257,
    511,
    65_536,
    65_536 + 64,
    1 << 32,
    usize::MAX - 63,
    usize::MAX,
];

/// A black level that is admitted.
pub fn level(generator: &mut Generator) -> usize {
    match generator.size(0, 1) {
        0 => generator.one_of(&LEVELS),
        _ => generator.size(0, 255),
    }
}

/// The frame with every sample below `least` raised to it.
pub fn held_up(mut frame: Frame, least: usize) -> Frame {
    for sample in &mut frame.samples {
        *sample = (*sample).max(least as u16);
    }
    frame
}

/// The frame with no sample more than 64 under the black level.
pub fn bright_enough(frame: Frame, black: usize) -> Frame {
    held_up(frame, black.saturating_sub(64))
}

/// A frame of the kind, and a black level with which it is accepted.
pub fn frame_and_level(
    generator: &mut Generator,
    kind: Kind,
    greatest_side: usize,
) -> (Frame, usize) {
    let black = level(generator);
    let frame = frame(generator, kind, greatest_side);
    (bright_enough(frame, black), black)
}
