//! What a call says where it refuses its input.

use crate::{ffi, text};
use std::fmt;

/// A refusal's number and place. Every buffer is then as it was.
#[derive(Clone, Copy, Debug, PartialEq, Eq, Hash)]
pub struct Refusal {
    pub number: usize,
    pub place: usize,
}

impl Refusal {
    /// W or H below 2 or above 4,096.
    pub const SIZE: usize = 1;
    /// Phase above 3.
    pub const PHASE: usize = 2;
    /// The mosaic's length is not W·H.
    pub const MOSAIC_LENGTH: usize = 3;
    /// Another buffer has a length that is not allowed.
    pub const BUFFER_LENGTH: usize = 4;
    /// A sample above 1,023; the place is that of the first.
    pub const SAMPLE: usize = 5;
    /// The file's length is below 512, no multiple of 512, or not the header's count of blocks.
    pub const BLOCK_COUNT: usize = 6;
    /// The check of the block at the place differs.
    pub const CHECK: usize = 7;
    /// The header's tag, W, H or phase is not allowed.
    pub const HEADER: usize = 8;
    /// The number of the block at the place differs.
    pub const BLOCK_NUMBER: usize = 9;
    /// A filler byte or sample of the block at the place is not zero.
    pub const FILLER: usize = 10;
    /// The black level is above 255.
    pub const BLACK_LEVEL: usize = 11;
    /// A sample more than 64 under the black level; the place is that of the first.
    pub const UNDER_BLACK: usize = 12;
    /// A number in the plane below 0 or above 1,023; the place is that of the first.
    pub const UNCLAMPED: usize = 13;
}

impl fmt::Display for Refusal {
    fn fmt(&self, to: &mut fmt::Formatter<'_>) -> fmt::Result {
        write!(
            to,
            "refused {} {}: {}",
            self.number,
            self.place,
            text(self.number)
        )
    }
}

impl std::error::Error for Refusal {}

impl ffi::Returned {
    pub(crate) fn accepted(self) -> Result<(), Refusal> {
        match self.number {
            0 => Ok(()),
            number => Err(Refusal {
                number,
                place: self.place,
            }),
        }
    }
}
