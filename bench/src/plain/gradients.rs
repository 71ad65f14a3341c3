//! Document 01, "Gradients": E and S of every site, formed once. W and N are entries of these two planes.

use super::plane::Plane;

pub struct Gradients {
    width: usize,
    height: usize,
    /// E from two columns west of the frame on.
    east: Plane,
    /// S from two rows north of the frame on.
    south: Plane,
    /// a of three rows that follow each other, and b of one.
    row_pairs: [Vec<i32>; 3],
    column_pairs: Vec<i32>,
}

/// The gradients of the sites of a row.
pub struct RowGradients<'a> {
    east: &'a [i32],
    south: &'a [i32],
    north: &'a [i32],
}

impl RowGradients<'_> {
    /// E, W, S, N
    #[inline(always)]
    pub fn at(&self, column: usize) -> [i32; 4] {
        let (east, west) = (self.east[column + 2], self.east[column]);
        [east, west, self.south[column], self.north[column]]
    }
}

/// a or b: |s| and the next |s|, from the seven samples that they are formed of.
#[inline(always)]
fn pair(z: [i32; 7]) -> i32 {
    let first = z[0] - 2 * z[1] + z[2] + z[3] - 2 * z[4] + z[5];
    let second = z[1] - 2 * z[2] + z[3] + z[4] - 2 * z[5] + z[6];
    first.abs() + second.abs()
}

impl Gradients {
    pub fn new(width: usize, height: usize) -> Self {
        let pairs = || vec![0; width + 2];
        Gradients {
            width,
            height,
            east: Plane::new(width, height, 2),
            south: Plane::new(width, height, 2),
            row_pairs: [pairs(), pairs(), pairs()],
            column_pairs: pairs(),
        }
    }

    pub fn row(&self, row: isize) -> RowGradients<'_> {
        RowGradients {
            east: self.east.row(row, 2, 0),
            south: self.south.inner(row),
            north: self.south.inner(row - 2),
        }
    }

    /// a of a row, from two columns west of the frame on; that of the two rows before stays.
    fn next_row_pairs(&mut self, z: &[i32]) {
        self.row_pairs.rotate_left(1);
        for (entry, z) in self.row_pairs[2].iter_mut().zip(z.windows(7)) {
            *entry = pair([z[0], z[1], z[2], z[3], z[4], z[5], z[6]]);
        }
    }

    /// E(i,j) = 8·|Z(i,j) − Z(i,j+2)| + 2·a(i,j) + a(i−1,j) + a(i+1,j)
    pub fn form_east(&mut self, samples: &Plane) {
        self.next_row_pairs(samples.row(-1, 4, 4));
        self.next_row_pairs(samples.row(0, 4, 4));
        for row in 0..self.height as isize {
            self.next_row_pairs(samples.row(row + 1, 4, 4));
            let [above, here, below] = &self.row_pairs;
            let z = samples.row(row, 2, 2);
            let east = self.east.row_mut(row, 2, 0);
            for j in 0..self.width + 2 {
                east[j] = 8 * (z[j] - z[j + 2]).abs() + 2 * here[j] + above[j] + below[j];
            }
        }
    }

    /// S is E with rows and columns exchanged.
    pub fn form_south(&mut self, samples: &Plane) {
        for row in -2..self.height as isize {
            let z = [-2, -1, 0, 1, 2, 3, 4].map(|off| samples.row(row + off, 1, 1));
            let b = &mut self.column_pairs[..self.width + 2];
            for j in 0..self.width + 2 {
                b[j] = pair(z.map(|z| z[j]));
            }
            let south = self.south.inner_mut(row);
            for j in 0..self.width {
                let step = (z[2][j + 1] - z[4][j + 1]).abs();
                south[j] = 8 * step + 2 * b[j + 1] + b[j] + b[j + 2];
            }
        }
    }
}
