//! Rounding and the weighted mean of document 01, with one division.

/// round(n/d) is the nearest whole number, halves upward; d is above 0.
pub fn round(n: i64, d: i64) -> i64 {
    (n + d / 2).div_euclid(d)
}

/// The number that is output for quarters.
pub fn output(quarters: i32) -> i32 {
    (quarters + 2) >> 2
}

/// The mean of four values, each with the weight 1/gradient. With p = E·W and q = S·N the weights, times all four gradients,
/// are W·q, E·q, N·p and S·p; they are 0 in all where two or more gradients are 0.
#[inline(always)]
pub fn weighted_mean(values: [i32; 4], gradients: [i32; 4]) -> i32 {
    let [e, w, s, n] = gradients.map(i64::from);
    let (p, q) = (e * w, s * n);
    let weights = (e + w) * q + (s + n) * p;
    if weights == 0 {
        return mean_at_zeros(values, gradients);
    }
    let [east, west, south, north] = values.map(i64::from);
    let sum = (east * w + west * e) * q + (south * n + north * s) * p;
    round(sum, weights) as i32
}

/// If some gradients are 0, only their values count, equally.
fn mean_at_zeros(values: [i32; 4], gradients: [i32; 4]) -> i32 {
    let (mut sum, mut count) = (0, 0);
    for (value, gradient) in values.into_iter().zip(gradients) {
        if gradient == 0 {
            sum += i64::from(value);
            count += 1;
        }
    }
    round(sum, count) as i32
}
