//! Half rows, kept in rings of rows. A half row holds every second column of a row: entry MARGIN + k of the half of parity p is column
//! 2·k + p. On each side of the frame's columns stand MARGIN reflected ones.

use crate::sites::reflected;

pub const MARGIN: usize = 4;

/// Rows that a ring holds: the sweep reads none that lies further back.
const RING: usize = 16;

/// How many columns of a row have the parity.
pub fn columns(width: usize, parity: usize) -> usize {
    (width + 1 - parity) / 2
}

/// One half row.
pub fn half_row<T: Copy + Default>(width: usize) -> Vec<T> {
    vec![T::default(); columns(width, 0) + 2 * MARGIN]
}

/// The entries of a half row from site `first` on.
#[inline(always)]
pub fn part<T>(half: &[T], first: isize, count: usize) -> &[T] {
    &half[(MARGIN as isize + first) as usize..][..count]
}

#[inline(always)]
pub fn part_mut<T>(half: &mut [T], first: isize, count: usize) -> &mut [T] {
    &mut half[(MARGIN as isize + first) as usize..][..count]
}

pub struct HalfRows<T> {
    width: usize,
    /// Entries of a half row.
    length: usize,
    entries: Vec<T>,
}

impl<T: Copy + Default> HalfRows<T> {
    pub fn new(width: usize) -> Self {
        let length = columns(width, 0) + 2 * MARGIN;
        HalfRows {
            width,
            length,
            entries: vec![T::default(); 2 * RING * length],
        }
    }

    fn start(&self, row: isize, parity: usize) -> usize {
        (row.rem_euclid(RING as isize) as usize * 2 + parity) * self.length
    }

    pub fn half(&self, row: isize, parity: usize) -> &[T] {
        &self.entries[self.start(row, parity)..][..self.length]
    }

    pub fn half_mut(&mut self, row: isize, parity: usize) -> &mut [T] {
        let start = self.start(row, parity);
        &mut self.entries[start..][..self.length]
    }

    /// Both halves of a row.
    pub fn row_mut(&mut self, row: isize) -> (&mut [T], &mut [T]) {
        let start = self.start(row, 0);
        self.entries[start..][..2 * self.length].split_at_mut(self.length)
    }

    /// Fills the margins of a half row.
    pub fn reflect(&mut self, row: isize, parity: usize) {
        let (width, count) = (self.width, columns(self.width, parity));
        let half = self.half_mut(row, parity);
        let place = |site: isize| {
            let column = 2 * site + parity as isize;
            MARGIN + (reflected(column, width) - parity) / 2
        };
        for k in 1..=MARGIN {
            half[MARGIN - k] = half[place(-(k as isize))];
            half[MARGIN + count - 1 + k] = half[place((count - 1 + k) as isize)];
        }
    }
}
