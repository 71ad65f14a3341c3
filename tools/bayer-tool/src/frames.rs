//! Frames: from and to frame files, and developed by the library.

use crate::input::Input;
use crate::output::Output;
use crate::problem::Problem;
use bayer::{Decision, Refusal, Shape, SIDES};
use reference::sites::Frame;

/// Red, green and blue.
pub type Planes = [Vec<i32>; 3];

/// Document 02, A2: the programs use b = 0. A frame file holds no black level.
const BLACK: usize = 0;

/// One byte more than the longest frame file has: a longer file need not be read further to be refused.
const ENOUGH: u64 = 1 + Shape {
    width: *SIDES.end(),
    height: *SIDES.end(),
    phase: 0,
}
.file_length() as u64;

pub fn shape(frame: &Frame) -> Shape {
    Shape {
        width: frame.width,
        height: frame.height,
        phase: frame.phase,
    }
}

/// The frame of a frame file.
pub fn load(from: Input) -> Result<Frame, Problem> {
    let file = from.read(ENOUGH)?;
    let mut samples = vec![0; bayer::read_length(file.len())];
    let shape = bayer::read(&file, &mut samples).map_err(|why| from.refused(why))?;
    samples.truncate(shape.plane_length());
    Ok(Frame {
        width: shape.width,
        height: shape.height,
        phase: shape.phase,
        samples,
    })
}

/// Writes the frame file of a frame that is from this input.
pub fn save(frame: &Frame, from: Input, to: &Output) -> Result<(), Problem> {
    let shape = shape(frame);
    let refused = |why| from.refused(why);
    admitted(frame.width, frame.height).map_err(refused)?;
    let mut file = vec![0; shape.file_length()];
    bayer::write(shape, &frame.samples, &mut file).map_err(refused)?;
    to.write(&file)
}

/// The library's refusal of a size, before a buffer is made for it.
pub fn admitted(width: usize, height: usize) -> Result<(), Refusal> {
    let allowed = |side| SIDES.contains(side);
    if allowed(&width) && allowed(&height) {
        return Ok(());
    }
    let shape = Shape {
        width,
        height,
        phase: 0,
    };
    bayer::write(shape, &[], &mut [])
}

/// The planes, unclamped, and the decision map that the library fills.
fn filled(frame: &Frame) -> Result<(Planes, Vec<u8>), Refusal> {
    let shape = shape(frame);
    let [mut red, mut green, mut blue] = [(); 3].map(|()| vec![0; shape.plane_length()]);
    let mut map = vec![0; shape.map_length()];
    let mut work = vec![0; shape.work_length()];
    bayer::develop(
        shape,
        BLACK,
        &frame.samples,
        &mut red,
        &mut green,
        &mut blue,
        &mut map,
        &mut work,
    )?;
    Ok(([red, green, blue], map))
}

/// The planes that the library fills, unclamped.
pub fn developed(frame: &Frame) -> Result<Planes, Refusal> {
    filled(frame).map(|(planes, _)| planes)
}

/// How the library decided the green of each site, in raster order.
pub fn decisions(frame: &Frame) -> Result<Vec<Decision>, Refusal> {
    let (_, map) = filled(frame)?;
    let decision = |code| Decision::from_code(code).expect("a code of the library's map");
    Ok(map.into_iter().map(decision).collect())
}
