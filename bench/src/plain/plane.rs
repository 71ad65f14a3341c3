//! Planes with margins. Reflection is done once for a plane, outside of the loops over its sites.

use crate::sites::reflected;
use std::ops::Range;

/// One number for each site of a frame and of the margins around it.
pub struct Plane {
    width: usize,
    height: usize,
    margin: usize,
    entries: Vec<i32>,
}

impl Plane {
    pub fn new(width: usize, height: usize, margin: usize) -> Self {
        let entries = vec![0; (width + 2 * margin) * (height + 2 * margin)];
        Plane {
            width,
            height,
            margin,
            entries,
        }
    }

    /// The places of a row, from `west` columns before the frame to `east` columns past it.
    fn places(&self, row: isize, west: usize, east: usize) -> Range<usize> {
        let stride = self.width + 2 * self.margin;
        let start = (row + self.margin as isize) as usize * stride + self.margin - west;
        start..start + west + self.width + east
    }

    /// A row of the frame or of the margins: entry `west` is column 0.
    pub fn row(&self, row: isize, west: usize, east: usize) -> &[i32] {
        &self.entries[self.places(row, west, east)]
    }

    pub fn row_mut(&mut self, row: isize, west: usize, east: usize) -> &mut [i32] {
        let places = self.places(row, west, east);
        &mut self.entries[places]
    }

    /// The columns of the frame.
    pub fn inner(&self, row: isize) -> &[i32] {
        self.row(row, 0, 0)
    }

    pub fn inner_mut(&mut self, row: isize) -> &mut [i32] {
        self.row_mut(row, 0, 0)
    }

    /// Fills the margins from the frame.
    pub fn reflect(&mut self) {
        let (width, margin) = (self.width, self.margin);
        for row in 0..self.height as isize {
            let entries = self.row_mut(row, margin, margin);
            for k in 1..=margin {
                let past = width - 1 + k;
                entries[margin - k] = entries[margin + reflected(-(k as isize), width)];
                entries[margin + past] = entries[margin + reflected(past as isize, width)];
            }
        }
        for k in 1..=margin as isize {
            self.fill_row(-k);
            self.fill_row(self.height as isize - 1 + k);
        }
    }

    /// Fills a row of the margins.
    fn fill_row(&mut self, row: isize) {
        let from = reflected(row, self.height) as isize;
        let places = self.places(from, self.margin, self.margin);
        let to = self.places(row, self.margin, self.margin).start;
        self.entries.copy_within(places, to);
    }
}
