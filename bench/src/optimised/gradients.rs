//! Document 01, "Gradients", in 16 bits: each a, b, E and S is formed once for a row, in half rows.

use super::half_rows::{columns, half_row, part, part_mut, HalfRows};
use crate::sites::Sites;

/// |s| of six samples.
#[inline(always)]
fn bend(z: [u16; 6]) -> u16 {
    (z[0] + z[2] + z[3] + z[5]).abs_diff(2 * (z[1] + z[4]))
}

/// a or b: |s| and the next |s|.
#[inline(always)]
fn pair(z: [u16; 7]) -> u16 {
    bend([z[0], z[1], z[2], z[3], z[4], z[5]]) + bend([z[1], z[2], z[3], z[4], z[5], z[6]])
}

/// a of a half row of samples from site −1 on. The other half's columns stand between those of `same`.
#[inline(never)]
fn form_row_pairs(same: &[u16], other: &[u16], parity: usize, count: usize, out: &mut [u16]) {
    let count = count + 1;
    let x = [-2, -1, 0, 1].map(|first| part(same, first, count));
    let y = [-2, -1, 0].map(|first| part(other, first + parity as isize, count));
    let out = part_mut(out, -1, count);
    for k in 0..count {
        out[k] = pair([
            x[0][k], y[0][k], x[1][k], y[1][k], x[2][k], y[2][k], x[3][k],
        ]);
    }
}

/// E of a half row from site −1 on, from its samples and a of the rows above, here and below.
#[inline(never)]
fn form_east(z: &[u16], pairs: [&[u16]; 3], count: usize, out: &mut [u16]) {
    let count = count + 1;
    let (here, next) = (part(z, -1, count), part(z, 0, count));
    let [above, level, below] = pairs.map(|pairs| part(pairs, -1, count));
    let out = part_mut(out, -1, count);
    for k in 0..count {
        out[k] = 8 * here[k].abs_diff(next[k]) + 2 * level[k] + above[k] + below[k];
    }
}

/// b of a half row, with one column more on each side, from seven rows of samples.
#[inline(never)]
fn form_column_pairs(rows: [&[u16]; 7], count: usize, out: &mut [u16]) {
    let count = count + 2;
    let [z0, z1, z2, z3, z4, z5, z6] = rows.map(|row| part(row, -1, count));
    let out = part_mut(out, -1, count);
    for k in 0..count {
        out[k] = pair([z0[k], z1[k], z2[k], z3[k], z4[k], z5[k], z6[k]]);
    }
}

/// S of a half row, from the two samples it lies between and b of both halves.
#[inline(never)]
fn form_south(z: [&[u16]; 2], same: &[u16], other: &[u16], parity: usize, out: &mut [u16]) {
    let count = out.len();
    let [here, next] = z.map(|z| part(z, 0, count));
    let same = part(same, 0, count);
    let west = part(other, parity as isize - 1, count);
    let east = part(other, parity as isize, count);
    for k in 0..count {
        out[k] = 8 * here[k].abs_diff(next[k]) + 2 * same[k] + west[k] + east[k];
    }
}

/// a, E and S of the rows that the sweep still reads.
pub struct Gradients {
    width: usize,
    row_pairs: HalfRows<u16>,
    /// b of one row
    column_pairs: [Vec<u16>; 2],
    east: HalfRows<u16>,
    south: HalfRows<u16>,
}

impl Gradients {
    pub fn new(width: usize) -> Self {
        Gradients {
            width,
            row_pairs: HalfRows::new(width),
            column_pairs: [(); 2].map(|()| half_row(width)),
            east: HalfRows::new(width),
            south: HalfRows::new(width),
        }
    }

    /// a of a row, from its samples.
    pub fn form_pairs(&mut self, samples: &HalfRows<u16>, row: isize) {
        for parity in 0..2 {
            let [same, other] = [parity, 1 - parity].map(|parity| samples.half(row, parity));
            let count = columns(self.width, parity);
            form_row_pairs(
                same,
                other,
                parity,
                count,
                self.row_pairs.half_mut(row, parity),
            );
        }
    }

    /// E and S of a row; at row 0 also S of the two rows above the frame.
    pub fn form(&mut self, sites: Sites, samples: &HalfRows<u16>, row: isize) {
        if row == 0 {
            self.form_south(sites, samples, -2);
            self.form_south(sites, samples, -1);
        }
        self.form_south(sites, samples, row);
        let rows = [-1, 0, 1].map(|off| sites.reflected_row(row + off));
        for parity in 0..2 {
            let pairs = rows.map(|row| self.row_pairs.half(row, parity));
            let out = self.east.half_mut(row, parity);
            form_east(
                samples.half(row, parity),
                pairs,
                columns(self.width, parity),
                out,
            );
        }
    }

    fn form_south(&mut self, sites: Sites, samples: &HalfRows<u16>, row: isize) {
        let rows = [-2, -1, 0, 1, 2, 3, 4].map(|off| sites.reflected_row(row + off));
        for (parity, pairs) in self.column_pairs.iter_mut().enumerate() {
            let z = rows.map(|row| samples.half(row, parity));
            form_column_pairs(z, columns(self.width, parity), pairs);
        }
        for parity in 0..2 {
            let z = [rows[2], rows[4]].map(|row| samples.half(row, parity));
            let [same, other] = [parity, 1 - parity].map(|parity| &self.column_pairs[parity][..]);
            let out = self.south.half_mut(row, parity);
            form_south(
                z,
                same,
                other,
                parity,
                part_mut(out, 0, columns(self.width, parity)),
            );
        }
    }

    /// N is S of two rows above.
    pub fn half(&self, row: isize, parity: usize) -> HalfGradients<'_> {
        let count = columns(self.width, parity);
        let east = self.east.half(row, parity);
        HalfGradients {
            east: part(east, 0, count),
            west: part(east, -1, count),
            south: part(self.south.half(row, parity), 0, count),
            north: part(self.south.half(row - 2, parity), 0, count),
        }
    }
}

/// The gradients of the sites of a half row.
#[derive(Clone, Copy)]
pub struct HalfGradients<'a> {
    east: &'a [u16],
    west: &'a [u16],
    south: &'a [u16],
    north: &'a [u16],
}

impl HalfGradients<'_> {
    /// E, W, S, N
    #[inline(always)]
    pub fn at(&self, k: usize) -> [u32; 4] {
        let (east, west) = (self.east[k].into(), self.west[k].into());
        [east, west, self.south[k].into(), self.north[k].into()]
    }
}
