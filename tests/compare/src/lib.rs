//! The proved library's calls, by its binding for Rust, with the independent implementation's types. Each call refuses what it does not
//! admit, so every input may be given.

pub mod guarded;
pub mod stack;

use bayer::Shape;
use reference::calls::Refusal;
use reference::frame_file::Description;

/// Width and height of frames whose count of samples is at, just below or just above a multiple of 400, or has the longest side.
pub const SIDES_NEAR_MULTIPLES_OF_400: [(usize, usize); 11] = [
    (20, 20),
    (21, 19),
    (57, 7),
    (40, 20),
    (47, 17),
    (89, 9),
    (50, 32),
    (1599, 3),
    (267, 6),
    (4096, 2),
    (2, 4096),
];

/// The binding's answer as the independent implementation tells it.
fn told<T>(answer: Result<T, bayer::Refusal>) -> Result<T, Refusal> {
    answer.map_err(|refusal| Refusal {
        number: refusal.number as u32,
        place: refusal.place,
    })
}

pub fn read(file: &[u8], samples: &mut [u16]) -> Result<Description, Refusal> {
    told(bayer::read(file, samples)).map(|shape| Description {
        width: shape.width,
        height: shape.height,
        phase: shape.phase,
    })
}

pub fn write(
    width: usize,
    height: usize,
    phase: usize,
    mosaic: &[u16],
    file: &mut [u8],
) -> Result<(), Refusal> {
    let shape = Shape {
        width,
        height,
        phase,
    };
    told(bayer::write(shape, mosaic, file))
}

#[allow(clippy::too_many_arguments)] // the document lends all of these
pub fn develop(
    width: usize,
    height: usize,
    phase: usize,
    black: usize,
    mosaic: &[u16],
    red: &mut [i32],
    green: &mut [i32],
    blue: &mut [i32],
    map: &mut [u8],
    work: &mut [i32],
) -> Result<(), Refusal> {
    let shape = Shape {
        width,
        height,
        phase,
    };
    told(bayer::develop(
        shape, black, mosaic, red, green, blue, map, work,
    ))
}

pub fn clamp(plane: &[i32], clamped: &mut [i32]) -> Result<(), Refusal> {
    told(bayer::clamp(plane, clamped))
}

pub fn curve(plane: &[i32], curved: &mut [i32]) -> Result<(), Refusal> {
    told(bayer::curve(plane, curved))
}
