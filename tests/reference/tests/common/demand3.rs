//! What demand 3 compares, for whatever develops a frame at a black level, and what document 02, A1 and A2, says of the map and of the
//! black level.

use super::{is_green, Developed, Generator};
use reference::calls::{refused, Refusal};
use reference::sites::{Colour, Frame};
use reference::turning::{
    changed_by_list, matching_code, matching_point, trades_an_odd_number, Change, CHANGES,
};

/// Develops a frame at a black level, or refuses it.
pub trait Develop: Fn(&Frame, usize) -> Result<Developed, Refusal> {
    /// What it makes of a frame that it must accept.
    fn accepted(&self, frame: &Frame, black: usize) -> Developed {
        self(frame, black).unwrap_or_else(|why| panic!("{why:?} for {black}, {frame:?}"))
    }
}

impl<F: Fn(&Frame, usize) -> Result<Developed, Refusal>> Develop for F {}

/// The three numbers at a point, red and blue traded if asked.
fn numbers(planes: &Developed, site: usize, traded: bool) -> [i32; 3] {
    let (red, blue) = (planes.red[site], planes.blue[site]);
    if traded {
        [blue, planes.green[site], red]
    } else {
        [red, planes.green[site], blue]
    }
}

pub fn list(generator: &mut Generator) -> Vec<Change> {
    let length = generator.size(0, 6);
    (0..length).map(|_| generator.one_of(&CHANGES)).collect()
}

/// The last frame is accepted at the same black level. Compares every point of the first frame with its matching point there: the three
/// numbers and the code.
pub fn compare_changed(develop: impl Develop, first: &Frame, black: usize, changes: &[Change]) {
    let last = changed_by_list(first, changes);
    let before = develop.accepted(first, black);
    let after = develop.accepted(&last, black);
    let traded = trades_an_odd_number(changes);
    for row in 0..first.height {
        for column in 0..first.width {
            let (to_row, to_column) = matching_point(first, changes, (row, column));
            let (from, to) = (row * first.width + column, to_row * last.width + to_column);
            let at = || format!("({row},{column}) of {first:?} at {black} by {changes:?}");
            let expected = numbers(&before, from, false);
            assert_eq!(numbers(&after, to, traded), expected, "{}", at());
            let expected = matching_code(changes, before.map[from]);
            assert_eq!(after.map[to], expected, "code at {}", at());
        }
    }
}

/// The least and the greatest constant that keep all samples in 0 to 1,023.
pub fn constants(frame: &Frame) -> (i64, i64) {
    let least = i64::from(*frame.samples.iter().min().unwrap());
    let greatest = i64::from(*frame.samples.iter().max().unwrap());
    (-least, 1023 - greatest)
}

/// The frame with a constant added to every sample, none of which it takes under 0.
pub fn raised(frame: &Frame, constant: i64) -> Frame {
    let mut raised = frame.clone();
    for sample in &mut raised.samples {
        *sample = u16::try_from(i64::from(*sample) + constant).unwrap();
    }
    raised
}

/// Adding the constant to every sample of a frame that is accepted at a black level adds it to all three numbers at every point and keeps
/// the map, where the constant keeps every sample in 0 to 1,023 and leaves none more than 64 under the black level; the raised frame is
/// accepted then, and refused by 5 or 12 otherwise. The number that it returns.
pub fn compare_raised(develop: impl Develop, frame: &Frame, black: usize, constant: i64) -> u32 {
    let before = develop.accepted(frame, black);
    let after = develop(&raised(frame, constant), black);
    let moved = || frame.samples.iter().map(|&z| i64::from(z) + constant);
    let too_high = moved().position(|sample| sample > 1_023);
    let too_dark = moved().position(|sample| black as i64 - sample > 64);
    let expected = match (too_high, too_dark) {
        (Some(place), _) => refused(5, place),
        (None, Some(place)) => refused(12, place),
        (None, None) => Ok(before.plus(constant as i32)),
    };
    assert_eq!(after, expected, "{constant} added to {frame:?} at {black}");
    after.map_or_else(|why| why.number, |_| 0)
}

/// Where every sample is at least the black level, developing at it is developing at 0 what the samples are with it taken off: all
/// numbers, and the map.
pub fn compare_taken_off(develop: impl Develop, frame: &Frame, black: usize) {
    let taken_off = raised(frame, -(black as i64));
    assert_eq!(
        develop.accepted(frame, black),
        develop.accepted(&taken_off, 0),
        "{black} taken off {frame:?}"
    );
}

/// At every black level from 0 to 255 the frame is refused by 12 or has the map of level 0, and its numbers less the level; how many
/// levels it is accepted with.
pub fn compare_levels(develop: impl Develop, frame: &Frame) -> usize {
    let at_0 = develop.accepted(frame, 0);
    let mut accepted = 0;
    for black in 0..=255 {
        let too_dark = |&sample: &u16| black as i32 - i32::from(sample) > 64;
        let expected = match frame.samples.iter().position(too_dark) {
            Some(place) => refused(12, place),
            None => Ok(at_0.clone().plus(-(black as i32))),
        };
        let found = develop(frame, black);
        accepted += usize::from(found.is_ok());
        assert_eq!(found, expected, "{frame:?} at {black}");
    }
    accepted
}

/// The sample measured at a point stands there in its own colour, less the black level.
pub fn compare_measured(develop: impl Develop, frame: &Frame, black: usize) {
    let planes = develop.accepted(frame, black);
    for (site, &sample) in frame.samples.iter().enumerate() {
        let (row, column) = (site / frame.width, site % frame.width);
        let plane = match frame.colour(row as i64, column as i64) {
            Colour::Red => &planes.red,
            Colour::Green => &planes.green,
            Colour::Blue => &planes.blue,
        };
        let expected = i32::from(sample) - black as i32;
        assert_eq!(plane[site], expected, "site {site} of {frame:?} at {black}");
    }
}

/// The least and the greatest number of the three planes, which lie in −2,046 to 3,069, both less the black level.
pub fn extremes(develop: impl Develop, frame: &Frame, black: usize) -> (i32, i32) {
    let planes = develop.accepted(frame, black);
    let numbers = [planes.red, planes.green, planes.blue].concat();
    let range = -2_046 - black as i32..=3_069 - black as i32;
    for number in &numbers {
        assert!(range.contains(number), "{number} of {frame:?} at {black}");
    }
    let least = *numbers.iter().min().unwrap();
    (least, *numbers.iter().max().unwrap())
}

/// The map has 0 at exactly the green sites and no code above 6; how many sites have each.
pub fn decisions(develop: impl Develop, frame: &Frame, black: usize) -> [usize; 7] {
    let mut counts = [0; 7];
    for (site, &code) in develop.accepted(frame, black).map.iter().enumerate() {
        let at = || format!("code {code} at site {site} of {frame:?} at {black}");
        assert!(code <= 6, "{}", at());
        assert_eq!(code == 0, is_green(frame, site), "{}", at());
        counts[usize::from(code)] += 1;
    }
    counts
}
