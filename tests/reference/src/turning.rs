//! Document 01, "What demand 3 compares": the four changes and the matching point; document 02, A1: the map's code there.

use crate::sites::Frame;

#[derive(Clone, Copy, Debug, PartialEq, Eq)]
pub enum Change {
    MirrorLeftToRight,
    MirrorTopToBottom,
    Transpose,
    TradeRedAndBlue,
}

pub const CHANGES: [Change; 4] = [
    Change::MirrorLeftToRight,
    Change::MirrorTopToBottom,
    Change::Transpose,
    Change::TradeRedAndBlue,
];

/// A row and a column.
pub type Point = (usize, usize);

/// W and H after a change.
fn changed_sides(width: usize, height: usize, change: Change) -> (usize, usize) {
    match change {
        Change::Transpose => (height, width),
        _ => (width, height),
    }
}

/// Where a change takes the sample at (row, column) of a frame of these sides.
fn moved(width: usize, height: usize, change: Change, (row, column): Point) -> Point {
    match change {
        Change::MirrorLeftToRight => (row, width - 1 - column),
        Change::MirrorTopToBottom => (height - 1 - row, column),
        Change::Transpose => (column, row),
        Change::TradeRedAndBlue => (row, column),
    }
}

/// The phase after a change, by the W and H from before.
fn changed_phase(frame: &Frame, change: Change) -> usize {
    let (down, along) = (frame.phase / 2, frame.phase % 2);
    match change {
        Change::MirrorLeftToRight if frame.width % 2 == 0 => 2 * down + (1 - along),
        Change::MirrorTopToBottom if frame.height % 2 == 0 => 2 * (1 - down) + along,
        Change::MirrorLeftToRight | Change::MirrorTopToBottom => frame.phase,
        Change::Transpose => match frame.phase {
            1 => 2,
            2 => 1,
            kept => kept,
        },
        Change::TradeRedAndBlue => 3 - frame.phase,
    }
}

/// The frame that a change makes.
pub fn changed(frame: &Frame, change: Change) -> Frame {
    let (width, height) = changed_sides(frame.width, frame.height, change);
    let mut samples = vec![0; frame.samples.len()];
    for row in 0..frame.height {
        for column in 0..frame.width {
            let from = (row, column);
            let (to_row, to_column) = moved(frame.width, frame.height, change, from);
            samples[to_row * width + to_column] = frame.samples[row * frame.width + column];
        }
    }
    Frame {
        width,
        height,
        phase: changed_phase(frame, change),
        samples,
    }
}

/// The last frame of a list of changes.
pub fn changed_by_list(frame: &Frame, changes: &[Change]) -> Frame {
    let start = frame.clone();
    changes
        .iter()
        .fold(start, |frame, &change| changed(&frame, change))
}

/// Where the sample at the point is after the last change of the list.
pub fn matching_point(frame: &Frame, changes: &[Change], point: Point) -> Point {
    let (mut width, mut height) = (frame.width, frame.height);
    let mut point = point;
    for &change in changes {
        point = moved(width, height, change, point);
        (width, height) = changed_sides(width, height, change);
    }
    point
}

/// Whether a change stands in the list an odd number of times.
fn an_odd_number(changes: &[Change], counted: Change) -> bool {
    let found = changes.iter().filter(|&&change| change == counted);
    found.count() % 2 == 1
}

/// Whether the list trades the names red and blue an odd number of times.
pub fn trades_an_odd_number(changes: &[Change]) -> bool {
    an_odd_number(changes, Change::TradeRedAndBlue)
}

/// The code that the matching point of a site with this code has: a transposition exchanges 2 with 3 and 4 with 5.
pub fn matching_code(changes: &[Change], code: u8) -> u8 {
    if !an_odd_number(changes, Change::Transpose) {
        return code;
    }
    match code {
        2 => 3,
        3 => 2,
        4 => 5,
        5 => 4,
        kept => kept,
    }
}
