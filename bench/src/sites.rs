//! Document 01, "Sites, phases, borders": the sites of a row, and reflection.

use std::iter::StepBy;
use std::ops::Range;

/// W, H and the phase.
#[derive(Clone, Copy)]
pub struct Sites {
    pub width: usize,
    pub height: usize,
    pub phase: usize,
}

impl Sites {
    /// The places of a row in a plane without margins.
    pub fn of_row(&self, row: isize) -> Range<usize> {
        let start = row as usize * self.width;
        start..start + self.width
    }

    /// The columns of a row's red and blue sites.
    pub fn chroma(&self, row: isize) -> StepBy<Range<usize>> {
        (self.first_chroma(row)..self.width).step_by(2)
    }

    /// The columns of a row's green sites.
    pub fn greens(&self, row: isize) -> StepBy<Range<usize>> {
        (1 - self.first_chroma(row)..self.width).step_by(2)
    }

    /// The first column of a row's red and blue sites.
    pub fn first_chroma(&self, row: isize) -> usize {
        (row as usize + self.phase / 2 + self.phase % 2) % 2
    }

    /// The row of the frame that is read for a row of it or outside of it.
    pub fn reflected_row(&self, row: isize) -> isize {
        reflected(row, self.height) as isize
    }

    /// Whether the row measures red beside green; otherwise it measures blue.
    pub fn measures_red(&self, row: isize) -> bool {
        (row as usize + self.phase / 2) % 2 == 0
    }
}

/// −k reads k, and side−1+k reads side−1−k, as often as needed.
pub fn reflected(position: isize, side: usize) -> usize {
    let period = 2 * (side - 1);
    let within = position.unsigned_abs() % period;
    within.min(period - within)
}
