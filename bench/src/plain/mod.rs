//! The method as a plain scalar program: a pass over the frame for each step, each gradient formed once, no loop over sites that
//! reflects a position, the second pass at weak sites alone, one division for a weighted mean.

mod gradients;
mod green;
mod mean;
mod plane;

use crate::sites::Sites;
use gradients::Gradients;
use green::FirstPass;
use mean::{output, weighted_mean};
use plane::Plane;

/// The buffers for frames of one size, made once, so that a call allocates nothing.
pub struct Plain {
    width: usize,
    height: usize,
    samples: Plane,
    gradients: Gradients,
    first_pass: FirstPass,
    /// D
    differences: Plane,
    /// In quarters, at red and blue sites: green minus the measured colour, and green minus the other one.
    own: Plane,
    other: Plane,
}

impl Plain {
    pub fn new(width: usize, height: usize) -> Self {
        Plain {
            width,
            height,
            samples: Plane::new(width, height, 4),
            gradients: Gradients::new(width, height),
            first_pass: FirstPass::new(width, height),
            differences: Plane::new(width, height, 2),
            own: Plane::new(width, height, 1),
            other: Plane::new(width, height, 1),
        }
    }

    /// Fills the planes red, green and blue, less the black level, and the decision map from a mosaic of the size.
    pub fn develop(
        &mut self,
        phase: usize,
        black: i32,
        mosaic: &[u16],
        planes: [&mut [i32]; 3],
        map: &mut [u8],
    ) {
        let sites = Sites {
            width: self.width,
            height: self.height,
            phase,
        };
        self.take_samples(mosaic);
        self.gradients.form_east(&self.samples);
        self.gradients.form_south(&self.samples);
        self.first_pass
            .run(sites, &self.samples, &self.gradients, map);
        self.form_differences(sites, map);
        self.form_own(sites);
        self.form_other(sites);
        self.output_rows(sites, black, planes);
    }

    fn take_samples(&mut self, mosaic: &[u16]) {
        for (row, samples) in mosaic.chunks_exact(self.width).enumerate() {
            let entries = self.samples.inner_mut(row as isize);
            for (entry, &sample) in entries.iter_mut().zip(samples) {
                *entry = i32::from(sample);
            }
        }
        self.samples.reflect();
    }

    fn form_differences(&mut self, sites: Sites, map: &mut [u8]) {
        for row in 0..self.height as isize {
            let differences = self.differences.inner_mut(row);
            let codes = &mut map[sites.of_row(row)];
            self.first_pass.differences(sites, row, differences, codes);
        }
        self.differences.reflect();
    }

    /// Enhancement: round((33·D + 67·M)/200)
    fn form_own(&mut self, sites: Sites) {
        for row in 0..self.height as isize {
            let gradients = self.gradients.row(row);
            let here = self.differences.row(row, 2, 2);
            let below = self.differences.inner(row + 2);
            let above = self.differences.inner(row - 2);
            let own = self.own.inner_mut(row);
            for j in sites.chroma(row) {
                let two_off = [here[j + 4], here[j], below[j], above[j]];
                let mean = weighted_mean(two_off, gradients.at(j));
                own[j] = (33 * here[j + 2] + 67 * mean + 100).div_euclid(200);
            }
        }
        self.own.reflect();
    }

    /// The mean of the four diagonal sites, each under the sum of its two gradients.
    fn form_other(&mut self, sites: Sites) {
        for row in 0..self.height as isize {
            let gradients = self.gradients.row(row);
            let above = self.own.row(row - 1, 1, 1);
            let below = self.own.row(row + 1, 1, 1);
            let other = self.other.inner_mut(row);
            for j in sites.chroma(row) {
                let [e, w, s, n] = gradients.at(j);
                let corners = [above[j + 2], above[j], below[j + 2], below[j]];
                other[j] = weighted_mean(corners, [n + e, n + w, s + e, s + w]);
            }
        }
        self.other.reflect();
    }

    fn output_rows(&self, sites: Sites, black: i32, [red, green, blue]: [&mut [i32]; 3]) {
        for row in 0..self.height as isize {
            let columns = sites.of_row(row);
            let red = &mut red[columns.clone()];
            let green = &mut green[columns.clone()];
            let blue = &mut blue[columns];
            let planes = if sites.measures_red(row) {
                [red, green, blue]
            } else {
                [blue, green, red]
            };
            self.output_row(sites, row, black, planes);
        }
    }

    /// The planes of the measured colour, of green and of the other colour, in a row, less the black level.
    fn output_row(
        &self,
        sites: Sites,
        row: isize,
        black: i32,
        [own_out, green_out, other_out]: [&mut [i32]; 3],
    ) {
        let z = self.samples.inner(row);
        let gradients = self.gradients.row(row);
        let (own, other) = (self.own.row(row, 1, 1), self.other.row(row, 1, 1));
        let (own_below, own_above) = (self.own.inner(row + 1), self.own.inner(row - 1));
        let (other_below, other_above) = (self.other.inner(row + 1), self.other.inner(row - 1));
        for j in sites.chroma(row) {
            let green = 4 * z[j] + own[j + 1];
            own_out[j] = z[j] - black;
            green_out[j] = output(green) - black;
            other_out[j] = output(green - other[j + 1]) - black;
        }
        for j in sites.greens(row) {
            // the colour that the row measures stands east and west, the other one south and north
            let own_near = [own[j + 2], own[j], other_below[j], other_above[j]];
            let other_near = [other[j + 2], other[j], own_below[j], own_above[j]];
            own_out[j] = output(4 * z[j] - weighted_mean(own_near, gradients.at(j))) - black;
            green_out[j] = z[j] - black;
            other_out[j] = output(4 * z[j] - weighted_mean(other_near, gradients.at(j))) - black;
        }
    }
}
