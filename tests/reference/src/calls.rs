//! Document 01, "Calls and returns": develop and clamp, with every refusal. From document 02 develop has the map of A1, and the black
//! level of A2 with its two refusals; curve is the call of A4.

use crate::curve::entry;
use crate::planes::planes;
use crate::sites::Frame;

/// The least and the greatest side of a frame.
pub const SIDES: std::ops::RangeInclusive<usize> = 2..=4096;
pub const GREATEST_PHASE: usize = 3;
pub const GREATEST_SAMPLE: u16 = 1023;
pub const GREATEST_BLACK: usize = 255;
/// How far a sample may lie under the black level.
pub const GREATEST_UNDER: usize = 64;

/// The number and the place of a refusal.
#[derive(Clone, Copy, Debug, PartialEq, Eq)]
pub struct Refusal {
    pub number: u32,
    pub place: usize,
}

/// The answer of a call that is refused.
pub fn refused<T>(number: u32, place: usize) -> Result<T, Refusal> {
    Err(Refusal { number, place })
}

/// The two numbers that the document has a call return: 0, 0 or number, place.
pub fn returned<T>(answer: &Result<T, Refusal>) -> (u32, usize) {
    match answer {
        Ok(_) => (0, 0),
        Err(refusal) => (refusal.number, refusal.place),
    }
}

/// Refusals 1 and 2 of develop and write.
pub(crate) fn test_shape(width: usize, height: usize, phase: usize) -> Result<(), Refusal> {
    if !SIDES.contains(&width) || !SIDES.contains(&height) {
        return refused(1, 0);
    }
    if phase > GREATEST_PHASE {
        return refused(2, 0);
    }
    Ok(())
}

/// Refusal 3 of develop and write, for sides that are tested.
pub(crate) fn test_length(width: usize, height: usize, mosaic: &[u16]) -> Result<(), Refusal> {
    if mosaic.len() != width * height {
        return refused(3, 0);
    }
    Ok(())
}

/// Refusal 5 of develop and write: the first sample above 1,023.
pub(crate) fn test_samples(mosaic: &[u16]) -> Result<(), Refusal> {
    match mosaic.iter().position(|&sample| sample > GREATEST_SAMPLE) {
        Some(place) => refused(5, place),
        None => Ok(()),
    }
}

/// Refusal 12 of develop: the first sample more than 64 under the black level.
fn test_darkness(mosaic: &[u16], black: usize) -> Result<(), Refusal> {
    let too_dark = |&sample: &u16| usize::from(sample) + GREATEST_UNDER < black;
    match mosaic.iter().position(too_dark) {
        Some(place) => refused(12, place),
        None => Ok(()),
    }
}

/// Refusal 13 of curve: the first number below 0 or above 1,023.
fn test_clamped(plane: &[i32]) -> Result<(), Refusal> {
    let unclamped = |&number: &i32| number < 0 || number > i32::from(GREATEST_SAMPLE);
    match plane.iter().position(unclamped) {
        Some(place) => refused(13, place),
        None => Ok(()),
    }
}

/// Fills the three planes, at the black level, and the decision map from the mosaic. The work buffer is only measured.
#[allow(clippy::too_many_arguments)] // the document lends all of these
pub fn develop(
    width: usize,
    height: usize,
    phase: usize,
    black: usize,
    mosaic: &[u16],
    red: &mut [i32],
    green: &mut [i32],
    blue: &mut [i32],
    map: &mut [u8],
    work: &mut [i32],
) -> Result<(), Refusal> {
    test_shape(width, height, phase)?;
    if black > GREATEST_BLACK {
        return refused(11, 0);
    }
    test_length(width, height, mosaic)?;
    let count = width * height;
    if red.len() != count || green.len() != count || blue.len() != count {
        return refused(4, 0);
    }
    if map.len() != count || work.len() < 4 * count {
        return refused(4, 0);
    }
    test_samples(mosaic)?;
    test_darkness(mosaic, black)?;
    let frame = Frame {
        width,
        height,
        phase,
        samples: mosaic.to_vec(),
    };
    let developed = planes(&frame, black as i64);
    for site in 0..count {
        red[site] = developed.red[site] as i32;
        green[site] = developed.green[site] as i32;
        blue[site] = developed.blue[site] as i32;
    }
    map.copy_from_slice(&developed.map);
    Ok(())
}

/// Fills `out` with each value of the plane held to 0..1,023.
pub fn clamp(plane: &[i32], out: &mut [i32]) -> Result<(), Refusal> {
    if out.len() != plane.len() {
        return refused(4, 0);
    }
    for (held, &value) in out.iter_mut().zip(plane) {
        *held = value.clamp(0, i32::from(GREATEST_SAMPLE));
    }
    Ok(())
}

/// Fills `curved` with the curve's entry for each number of a clamped plane.
pub fn curve(plane: &[i32], curved: &mut [i32]) -> Result<(), Refusal> {
    if curved.len() != plane.len() {
        return refused(4, 0);
    }
    test_clamped(plane)?;
    for (filled, &number) in curved.iter_mut().zip(plane) {
        *filled = entry(i64::from(number)) as i32;
    }
    Ok(())
}
