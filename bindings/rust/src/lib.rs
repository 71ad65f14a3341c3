//! Develops frames of 10-bit Bayer samples at a black level to red, green and blue planes and a map of how each green was decided, clamps
//! planes, applies the square-root tone curve to them, and reads and writes frame files.
//!
//! Safe functions over slices; the work is done by libbayer. Every input is answered: a call succeeds, or returns a [`Refusal`] and leaves
//! every buffer as it was. Nothing is allocated, and calls may run in any number of threads.
//!
//! ```
//! let shape = bayer::Shape { width: 2, height: 2, phase: 0 };
//! let mosaic = [100, 40, 61, 200];
//! let (mut red, mut green, mut blue, mut map, mut work) = ([0; 4], [0; 4], [0; 4], [0; 4], [0; 16]);
//! let black = 40;
//! bayer::develop(shape, black, &mosaic, &mut red, &mut green, &mut blue, &mut map, &mut work)?;
//! assert_eq!((red, green, blue), ([60, 50, 71, 60], [11, 0, 21, 11], [160, 150, 171, 160]));
//! assert_eq!(bayer::Decision::from_code(map[0]), Some(bayer::Decision::Equal));
//! # Ok::<(), bayer::Refusal>(())
//! ```

mod decision;
mod ffi;
mod refusal;

pub use decision::{decision_text, Decision};
pub use refusal::Refusal;

use std::ffi::{c_char, CStr};

/// W, H and the phase of a frame. The phase is 0 RGGB, 1 GRBG, 2 GBRG, 3 BGGR. A value of any numbers may be given to a call.
#[repr(C)]
#[derive(Clone, Copy, Debug, PartialEq, Eq, Hash)]
pub struct Shape {
    pub width: usize,
    pub height: usize,
    pub phase: usize,
}

/// The least and the greatest side of a frame.
pub const SIDES: std::ops::RangeInclusive<usize> = 2..=4096;

/// The greatest sample, and the greatest number of a clamped plane.
pub const SAMPLE_MOST: u16 = 1023;

/// The greatest black level.
pub const BLACK_MOST: usize = 255;

/// How far a sample may lie under the black level.
pub const UNDER_BLACK_MOST: usize = 64;

impl Shape {
    /// Entries of the mosaic and of each plane: W·H. For sides past the range the product is cut, and every call refuses them.
    pub const fn plane_length(self) -> usize {
        self.width.wrapping_mul(self.height)
    }

    /// Bytes of the decision map: one for each site.
    pub const fn map_length(self) -> usize {
        self.plane_length()
    }

    /// Entries that develop needs of its work buffer.
    pub const fn work_length(self) -> usize {
        self.plane_length().wrapping_mul(4)
    }

    /// Bytes of the frame file.
    pub const fn file_length(self) -> usize {
        (self.plane_length().wrapping_add(399) / 400)
            .wrapping_add(1)
            .wrapping_mul(512)
    }
}

/// Entries that are enough for [`read`], whatever frame a file of this many bytes holds.
pub const fn read_length(file_length: usize) -> usize {
    (file_length / 512).saturating_mul(400)
}

/// Reads a frame file into `samples`, which has W·H entries or more; those past W·H stay.
pub fn read(file: &[u8], samples: &mut [u16]) -> Result<Shape, Refusal> {
    // Both slices are lent with their own lengths, and one that may be changed is lent to no other.
    let read = unsafe {
        ffi::bayer_read(
            file.as_ptr(),
            file.len(),
            samples.as_mut_ptr(),
            samples.len(),
        )
    };
    let returned = ffi::Returned {
        number: read.number,
        place: read.place,
    };
    returned.accepted().map(|()| Shape {
        width: read.width,
        height: read.height,
        phase: read.phase,
    })
}

/// Writes a frame into `file`, which has exactly [`Shape::file_length`] bytes.
pub fn write(shape: Shape, mosaic: &[u16], file: &mut [u8]) -> Result<(), Refusal> {
    // Both slices are lent with their own lengths, and one that may be changed is lent to no other.
    let returned = unsafe {
        ffi::bayer_write(
            shape,
            mosaic.as_ptr(),
            mosaic.len(),
            file.as_mut_ptr(),
            file.len(),
        )
    };
    returned.accepted()
}

/// Develops a frame into three planes, unclamped, and the code of each site's [`Decision`] into `map`. The samples are developed as they
/// came, and `black`, the sample that stands for no light, is taken off each of the three rounded numbers; 0 is right for samples that had
/// it taken off before. `map` does not depend on it. The mosaic and the planes have exactly [`Shape::plane_length`] entries, `map` has
/// exactly [`Shape::map_length`], `work` has [`Shape::work_length`] or more. No answer depends on what the planes, `map` and `work` held
/// before; after success `work` may hold anything.
#[allow(clippy::too_many_arguments)] // the library lends all of these
pub fn develop(
    shape: Shape,
    black: usize,
    mosaic: &[u16],
    red: &mut [i32],
    green: &mut [i32],
    blue: &mut [i32],
    map: &mut [u8],
    work: &mut [i32],
) -> Result<(), Refusal> {
    // Each slice is lent with its own length, and one that may be changed is lent to no other.
    let returned = unsafe {
        ffi::bayer_develop(
            shape,
            black,
            mosaic.as_ptr(),
            mosaic.len(),
            red.as_mut_ptr(),
            red.len(),
            green.as_mut_ptr(),
            green.len(),
            blue.as_mut_ptr(),
            blue.len(),
            map.as_mut_ptr(),
            map.len(),
            work.as_mut_ptr(),
            work.len(),
        )
    };
    returned.accepted()
}

/// Fills `clamped` with each value of `plane` held to 0..1,023; both have the same length.
pub fn clamp(plane: &[i32], clamped: &mut [i32]) -> Result<(), Refusal> {
    // Both slices are lent with their own lengths, and one that may be changed is lent to no other.
    let returned = unsafe {
        ffi::bayer_clamp(
            plane.as_ptr(),
            plane.len(),
            clamped.as_mut_ptr(),
            clamped.len(),
        )
    };
    returned.accepted()
}

/// Applies the square-root tone curve of display panels: fills `curved` with the curve's entry for each number of `plane`, which is clamped;
/// both have the same length. Entry 0 is 0, and for v from 1 to 1,023 the entry is the square root of 1,023·v, rounded.
pub fn curve(plane: &[i32], curved: &mut [i32]) -> Result<(), Refusal> {
    // Both slices are lent with their own lengths, and one that may be changed is lent to no other.
    let returned = unsafe {
        ffi::bayer_curve(
            plane.as_ptr(),
            plane.len(),
            curved.as_mut_ptr(),
            curved.len(),
        )
    };
    returned.accepted()
}

/// A text of the library.
fn stored(text: *const c_char) -> &'static str {
    // The library's texts end in 0, stand in its constants, and are ASCII.
    unsafe { CStr::from_ptr(text) }
        .to_str()
        .expect("a text of the library")
}

/// What a refusal's number says, in a few words; a text also for a number that no call returns.
pub fn text(number: usize) -> &'static str {
    stored(unsafe { ffi::bayer_text(number) })
}

/// The linked library's version.
pub fn version() -> &'static str {
    stored(unsafe { ffi::bayer_version() })
}
