//! Document 01, "Green", over half rows without a branch. Where the first pass finds a green, r_H, r_V and r_D are equal and the second
//! pass gives that value back, so it runs at every red and blue site. Codes are as wide as the differences beside them, and formed by
//! subtraction: chosen from, they would bring the branches back.

use super::gradients::HalfGradients;
use super::half_rows::part;
use crate::decisions::{STRONG_DOWN, UNDECIDED, WEAK_TO_MEAN};

/// gH or gV less 8·X, from X, its two green neighbours and the two samples of its colour.
#[inline(always)]
fn estimate(x: u16, greens: [u16; 2], same: [u16; 2]) -> i16 {
    4 * (greens[0] + greens[1]) as i16 - 4 * x as i16 - 2 * (same[0] + same[1]) as i16
}

/// The half rows that the first pass reads at the red and blue sites of a row.
pub struct Around<'a> {
    pub parity: usize,
    /// The colour of the sites: their own row, two rows above and two below.
    pub same: [&'a [u16]; 3],
    /// Green: between the sites, in the row above and in the row below.
    pub green: [&'a [u16]; 3],
}

/// The first pass of a half row: r_H, r_V and r_D, and the codes of the sites that it decides.
#[inline(never)]
pub fn first_pass(
    around: Around,
    gradients: HalfGradients,
    across: &mut [i16],
    down: &mut [i16],
    both: &mut [i16],
    codes: &mut [u16],
) {
    let count = across.len();
    let (down, both) = (&mut down[..count], &mut both[..count]);
    let codes = &mut codes[..count];
    let [x, x_above, x_below] = around.same.map(|half| part(half, 0, count));
    let [x_west, x_east] = [-1, 1].map(|first| part(around.same[0], first, count));
    let parity = around.parity as isize;
    let g_west = part(around.green[0], parity - 1, count);
    let g_east = part(around.green[0], parity, count);
    let (g_above, g_below) = (
        part(around.green[1], 0, count),
        part(around.green[2], 0, count),
    );
    for k in 0..count {
        let r_h = estimate(x[k], [g_west[k], g_east[k]], [x_west[k], x_east[k]]);
        let r_v = estimate(x[k], [g_above[k], g_below[k]], [x_above[k], x_below[k]]);
        let r_d = (r_h + r_v) >> 1;
        let [e, w, s, n] = gradients.at(k);
        let (h, v) = ((e + w) as i32, (s + n) as i32);
        let strong = 10 * h.max(v) > 17 * h.min(v);
        let straight = if h < v { r_h } else { r_v };
        let found = if h == v { r_d } else { straight };
        let has_green = (h == v) | strong;
        across[k] = if has_green { found } else { r_h };
        down[k] = if has_green { found } else { r_v };
        both[k] = if has_green { found } else { r_d };
        // 2 where h < v, 1 where they are equal
        let decided = u16::from(STRONG_DOWN) - u16::from(h < v) - 2 * u16::from(h == v);
        codes[k] = if has_green { decided } else { UNDECIDED.into() };
    }
}

/// What the second pass reads: r_H and r_D of the row, r_V and r_D of the rows 6, 4 and 2 above and below.
pub struct Reach<'a> {
    pub across: &'a [i16],
    pub both: &'a [i16],
    pub down: &'a [i16],
    pub down_rows: [&'a [i16]; 6],
    pub both_rows: [&'a [i16]; 6],
}

/// The sum of the distances between a difference and six others.
#[inline(always)]
fn distances(here: i16, others: [i16; 6]) -> i32 {
    let two = |k: usize| {
        let (one, next) = (others[k], others[k + 1]);
        i32::from(here.abs_diff(one) + here.abs_diff(next))
    };
    two(0) + two(2) + two(4)
}

/// The second pass of a half row: D, and the codes of the weak sites.
#[inline(never)]
pub fn second_pass(reach: Reach, out: &mut [i16], codes: &mut [u16]) {
    let count = out.len();
    let codes = &mut codes[..count];
    let steps = [-3, -2, -1, 1, 2, 3];
    let across = part(reach.across, 0, count);
    let down = part(reach.down, 0, count);
    let both = part(reach.both, 0, count);
    let [h0, h1, h2, h3, h4, h5] = steps.map(|step| part(reach.across, step, count));
    let [v0, v1, v2, v3, v4, v5] = reach.down_rows.map(|half| part(half, 0, count));
    let [c0, c1, c2, c3, c4, c5] = steps.map(|step| part(reach.both, step, count));
    let [d0, d1, d2, d3, d4, d5] = reach.both_rows.map(|half| part(half, 0, count));
    for k in 0..count {
        let (r_h, r_v, r_d) = (across[k], down[k], both[k]);
        let f_h = 2 * distances(r_h, [h0[k], h1[k], h2[k], h3[k], h4[k], h5[k]]);
        let f_v = 2 * distances(r_v, [v0[k], v1[k], v2[k], v3[k], v4[k], v5[k]]);
        let columns = distances(r_d, [c0[k], c1[k], c2[k], c3[k], c4[k], c5[k]]);
        let rows = distances(r_d, [d0[k], d1[k], d2[k], d3[k], d4[k], d5[k]]);
        let f_d = columns + rows;
        let (least_h, least_v) = ((f_h < f_v) & (f_h < f_d), (f_v < f_h) & (f_v < f_d));
        let otherwise = if least_v { r_v } else { r_d };
        out[k] = if least_h { r_h } else { otherwise };
        // 4 where FH is the least, 5 where FV is
        let resolved = u16::from(WEAK_TO_MEAN) - 2 * u16::from(least_h) - u16::from(least_v);
        let first = codes[k];
        codes[k] = if first == UNDECIDED.into() {
            resolved
        } else {
            first
        };
    }
}
