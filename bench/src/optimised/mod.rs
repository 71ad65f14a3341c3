//! The method as one optimises it without proofs: one sweep over the rows, every number held in half rows with reflected margins, in rings
//! of a few rows that stay in the cache, 16 bits wide where the numbers fit; E and S formed once; loops over unit strides without a branch,
//! but for the weighted means, which divide. Each such loop is a function of its own and not inlined, so that the compiler knows that what
//! it fills overlaps nothing that it reads.

pub mod curve;
mod differences;
mod gradients;
mod green;
mod half_rows;
mod stages;

use crate::sites::Sites;
use gradients::Gradients;
use half_rows::{half_row, HalfRows};

/// How many rows each stage lies behind the row that is loaded.
const FIRST: isize = 4;
const SECOND: isize = 10;
const ENHANCE: isize = 12;
const DIAGONAL: isize = 13;
const OUT: isize = 14;

/// The buffers for frames of one size, made once, so that a call allocates nothing.
pub struct Optimised {
    width: usize,
    height: usize,
    samples: HalfRows<u16>,
    gradients: Gradients,
    /// r_H, r_V and r_D
    across: HalfRows<i16>,
    down: HalfRows<i16>,
    both: HalfRows<i16>,
    /// Codes of the decision map
    codes: HalfRows<u16>,
    /// D
    differences: HalfRows<i16>,
    /// In quarters, at red and blue sites: green minus the measured colour, and green minus the other one.
    own: HalfRows<i16>,
    other: HalfRows<i16>,
    /// Half rows of the planes: green and the other colour at red and blue sites, both missing colours at green sites.
    filled: [Vec<i16>; 4],
}

impl Optimised {
    pub fn new(width: usize, height: usize) -> Self {
        Optimised {
            width,
            height,
            samples: HalfRows::new(width),
            gradients: Gradients::new(width),
            across: HalfRows::new(width),
            down: HalfRows::new(width),
            both: HalfRows::new(width),
            codes: HalfRows::new(width),
            differences: HalfRows::new(width),
            own: HalfRows::new(width),
            other: HalfRows::new(width),
            filled: [(); 4].map(|()| half_row(width)),
        }
    }

    /// Fills the planes red, green and blue, less the black level, and the decision map from a mosaic of the size.
    pub fn develop(
        &mut self,
        phase: usize,
        black: i32,
        mosaic: &[u16],
        planes: [&mut [i32]; 3],
        map: &mut [u8],
    ) {
        let sites = Sites {
            width: self.width,
            height: self.height,
            phase,
        };
        let [red, green, blue] = planes;
        let height = sites.height as isize;
        for step in 0..height + OUT {
            let due = |behind: isize| Some(step - behind).filter(|row| (0..height).contains(row));
            if let Some(row) = due(0) {
                self.load(row, &mosaic[sites.of_row(row)]);
                self.gradients.form_pairs(&self.samples, row);
            }
            if let Some(row) = due(FIRST) {
                self.gradients.form(sites, &self.samples, row);
                self.run_first_pass(sites, row);
            }
            if let Some(row) = due(SECOND) {
                self.run_second_pass(sites, row, &mut map[sites.of_row(row)]);
            }
            if let Some(row) = due(ENHANCE) {
                self.enhance(sites, row);
            }
            if let Some(row) = due(DIAGONAL) {
                self.form_diagonals(sites, row);
            }
            if let Some(row) = due(OUT) {
                let lent = [&mut *red, &mut *green, &mut *blue];
                let lent = lent.map(|plane| &mut plane[sites.of_row(row)]);
                self.output_row(sites, row, black, lent);
            }
        }
    }
}
