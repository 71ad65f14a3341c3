//! Document 01, "Differences and planes", over half rows. Values are lifted above 0 for the weighted mean, so that it takes one unsigned
//! division.

use super::gradients::HalfGradients;
use super::half_rows::part;

/// More than any D in eighths, and more than any difference in quarters.
const LIFT_EIGHTHS: i32 = 8192;
const LIFT_QUARTERS: i32 = 4096;

/// The weighted mean of four values above −LIFT, halves upward. With p = E·W and q = S·N the weights, times all four gradients, are
/// W·q, E·q, N·p and S·p; they are 0 in all where two or more gradients are 0.
#[inline(always)]
fn weighted_mean<const LIFT: i32>(values: [i16; 4], gradients: [u32; 4]) -> i32 {
    let lifted = values.map(|value| (i32::from(value) + LIFT) as u64);
    let [e, w, s, n] = gradients.map(u64::from);
    let (p, q) = (e * w, s * n);
    let weights = (e + w) * q + (s + n) * p;
    let sum = (lifted[0] * w + lifted[1] * e) * q + (lifted[2] * n + lifted[3] * s) * p;
    let quotient = (sum + weights / 2).checked_div(weights);
    let mean = quotient.unwrap_or_else(|| mean_at_zeros(lifted, gradients));
    mean as i32 - LIFT
}

/// If some gradients are 0, only their values count, equally.
#[inline(always)]
fn mean_at_zeros(values: [u64; 4], gradients: [u32; 4]) -> u64 {
    let zeros = gradients.map(|gradient| u64::from(gradient == 0));
    let count: u64 = zeros.iter().sum();
    let sum: u64 = (0..4).map(|k| zeros[k] * values[k]).sum();
    (sum + count / 2) / count
}

/// The number that is output for quarters.
#[inline(always)]
fn output(quarters: i32) -> i16 {
    ((quarters + 2) >> 2) as i16
}

/// Enhancement: round((33·D + 67·M)/200), from D of the row, two rows below and two above.
#[inline(never)]
pub fn form_own(rows: [&[i16]; 3], gradients: HalfGradients, out: &mut [i16]) {
    let count = out.len();
    let [here, below, above] = rows.map(|half| part(half, 0, count));
    let (west, east) = (part(rows[0], -1, count), part(rows[0], 1, count));
    for k in 0..count {
        let two_off = [east[k], west[k], below[k], above[k]];
        let mean = weighted_mean::<LIFT_EIGHTHS>(two_off, gradients.at(k));
        let hundredths = 33 * i32::from(here[k]) + 67 * mean + 100;
        out[k] = ((hundredths + 200 * LIFT_EIGHTHS) as u32 / 200) as i16 - LIFT_EIGHTHS as i16;
    }
}

/// The mean of the four diagonal sites, each under the sum of its two gradients, from the rows above and below.
#[inline(never)]
pub fn form_other(rows: [&[i16]; 2], parity: usize, gradients: HalfGradients, out: &mut [i16]) {
    let count = out.len();
    let [west_above, west_below] = rows.map(|half| part(half, parity as isize - 1, count));
    let [east_above, east_below] = rows.map(|half| part(half, parity as isize, count));
    for k in 0..count {
        let corners = [east_above[k], west_above[k], east_below[k], west_below[k]];
        let [e, w, s, n] = gradients.at(k);
        out[k] = weighted_mean::<LIFT_QUARTERS>(corners, [n + e, n + w, s + e, s + w]) as i16;
    }
}

/// Green and the other colour at the red and blue sites of a row.
#[inline(never)]
pub fn fill_chroma_sites(
    z: &[u16],
    differences: [&[i16]; 2],
    green_out: &mut [i16],
    other_out: &mut [i16],
) {
    let count = green_out.len();
    let z = part(z, 0, count);
    let [own, other] = differences.map(|half| part(half, 0, count));
    let other_out = &mut other_out[..count];
    for k in 0..count {
        let green = 4 * i32::from(z[k]) + i32::from(own[k]);
        green_out[k] = output(green);
        other_out[k] = output(green - i32::from(other[k]));
    }
}

/// The differences of one kind around the green sites of a row: those of the row, of the row below and of the row above.
pub type Near<'a> = [&'a [i16]; 3];

/// The measured colour and the other one at the green sites of a row. East and west stands the colour that the row measures, south and
/// north the other one.
#[inline(never)]
pub fn fill_green_sites(
    z: &[u16],
    near: [Near; 2],
    parity: usize,
    gradients: HalfGradients,
    own_out: &mut [i16],
    other_out: &mut [i16],
) {
    let count = own_out.len();
    let z = part(z, 0, count);
    let [own_west, other_west] = near.map(|near| part(near[0], parity as isize - 1, count));
    let [own_east, other_east] = near.map(|near| part(near[0], parity as isize, count));
    let [own_below, other_below] = near.map(|near| part(near[1], 0, count));
    let [own_above, other_above] = near.map(|near| part(near[2], 0, count));
    let other_out = &mut other_out[..count];
    for k in 0..count {
        let green = 4 * i32::from(z[k]);
        let own_near = [own_east[k], own_west[k], other_below[k], other_above[k]];
        let other_near = [other_east[k], other_west[k], own_below[k], own_above[k]];
        own_out[k] = output(green - weighted_mean::<LIFT_QUARTERS>(own_near, gradients.at(k)));
        other_out[k] = output(green - weighted_mean::<LIFT_QUARTERS>(other_near, gradients.at(k)));
    }
}
