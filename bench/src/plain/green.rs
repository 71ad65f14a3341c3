//! Document 01, "Green": the two passes, with each green in eighths less 8·X. The map has a site's code as soon as it is decided.

use super::gradients::Gradients;
use super::plane::Plane;
use crate::decisions::{
    EQUAL, MEASURED, STRONG_ACROSS, STRONG_DOWN, UNDECIDED, WEAK_ACROSS, WEAK_DOWN, WEAK_TO_MEAN,
};
use crate::sites::Sites;

/// The first pass at the red and blue sites.
pub struct FirstPass {
    /// r_H, r_V and r_D
    across: Plane,
    down: Plane,
    both: Plane,
}

/// gH or gV less 8·X, from X, its two green neighbours and the two samples of its colour.
fn estimate(x: i32, greens: [i32; 2], same: [i32; 2]) -> i32 {
    4 * (greens[0] + greens[1]) - 4 * x - 2 * (same[0] + same[1])
}

impl FirstPass {
    pub fn new(width: usize, height: usize) -> Self {
        FirstPass {
            across: Plane::new(width, height, 6),
            down: Plane::new(width, height, 6),
            both: Plane::new(width, height, 6),
        }
    }

    pub fn run(&mut self, sites: Sites, samples: &Plane, gradients: &Gradients, map: &mut [u8]) {
        for row in 0..sites.height as isize {
            let codes = &mut map[sites.of_row(row)];
            self.run_row(sites, samples, gradients, row, codes);
        }
        self.across.reflect();
        self.down.reflect();
        self.both.reflect();
    }

    fn run_row(
        &mut self,
        sites: Sites,
        samples: &Plane,
        gradients: &Gradients,
        row: isize,
        codes: &mut [u8],
    ) {
        let gradients = gradients.row(row);
        let z = [-2, -1, 0, 1, 2].map(|off| samples.row(row + off, 2, 2));
        let across = self.across.inner_mut(row);
        let down = self.down.inner_mut(row);
        let both = self.both.inner_mut(row);
        codes.fill(MEASURED);
        for j in sites.chroma(row) {
            let [e, w, s, n] = gradients.at(j);
            let (h, v) = (e + w, s + n);
            let x = z[2][j + 2];
            let g_h = estimate(x, [z[2][j + 1], z[2][j + 3]], [z[2][j], z[2][j + 4]]);
            let g_v = estimate(x, [z[1][j + 2], z[3][j + 2]], [z[0][j + 2], z[4][j + 2]]);
            let g_d = (g_h + g_v) >> 1;
            let (code, found) = if h == v {
                (EQUAL, Some(g_d))
            } else if 10 * h.max(v) > 17 * h.min(v) {
                if h < v {
                    (STRONG_ACROSS, Some(g_h))
                } else {
                    (STRONG_DOWN, Some(g_v))
                }
            } else {
                (UNDECIDED, None)
            };
            codes[j] = code;
            across[j] = found.unwrap_or(g_h);
            down[j] = found.unwrap_or(g_v);
            both[j] = found.unwrap_or(g_d);
        }
    }

    /// The second pass: D of a row, and the codes of its weak sites.
    pub fn differences(&self, sites: Sites, row: isize, differences: &mut [i32], codes: &mut [u8]) {
        let off_rows = [-6, -4, -2, 0, 2, 4, 6].map(|off| row + off);
        let across = self.across.row(row, 6, 6);
        let both = self.both.row(row, 6, 6);
        let down_rows = off_rows.map(|row| self.down.inner(row));
        let both_rows = off_rows.map(|row| self.both.inner(row));
        for j in sites.chroma(row) {
            let (r_h, r_v, r_d) = (across[j + 6], down_rows[3][j], both[j + 6]);
            if codes[j] != UNDECIDED {
                differences[j] = r_d;
                continue;
            }
            let (mut f_h, mut f_v, mut f_d) = (0, 0, 0);
            for t in 0..7 {
                f_h += 2 * (r_h - across[j + 2 * t]).abs();
                f_v += 2 * (r_v - down_rows[t][j]).abs();
                f_d += (r_d - both[j + 2 * t]).abs() + (r_d - both_rows[t][j]).abs();
            }
            (codes[j], differences[j]) = if f_h < f_v && f_h < f_d {
                (WEAK_ACROSS, r_h)
            } else if f_v < f_h && f_v < f_d {
                (WEAK_DOWN, r_v)
            } else {
                (WEAK_TO_MEAN, r_d)
            };
        }
    }
}
