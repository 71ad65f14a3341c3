//! Document 01, "Differences and planes": from the greens to the three planes; document 02: the decision map of A1, the black level of A2.

use crate::gradients::gradients;
use crate::green::{green, Decision, Green};
use crate::sites::{Colour, Frame, PerSite};

/// Differences in quarters or eighths at the red and blue sites; nothing at the green ones.
type Differences = PerSite<Option<i64>>;

/// The numbers of the three planes, unclamped, and the codes of the decision map, in raster order.
#[derive(Clone, Debug, PartialEq, Eq)]
pub struct Planes {
    pub red: Vec<i64>,
    pub green: Vec<i64>,
    pub blue: Vec<i64>,
    pub map: Vec<u8>,
}

/// round(n/d) is the nearest whole number, halves upward; d is above 0.
pub fn round(n: i128, d: i128) -> i128 {
    (2 * n + d).div_euclid(2 * d)
}

/// The mean of four values, each with the weight 1/gradient, rounded one time.
/// If some gradients are 0, only their values count, equally.
pub fn weighted_mean(values: [i64; 4], gradients: [i64; 4]) -> i64 {
    let mut sum = 0;
    let mut weights = 0;
    for here in 0..4 {
        let weight = if gradients.contains(&0) {
            i128::from(gradients[here] == 0)
        } else {
            // 1/gradient times the product of all four gradients
            let others = (0..4).filter(|&other| other != here);
            others.map(|other| i128::from(gradients[other])).product()
        };
        sum += weight * i128::from(values[here]);
        weights += weight;
    }
    round(sum, weights) as i64
}

/// The final difference in quarters: round((33·D + 67·M)/200).
pub fn final_difference(difference: i64, mean: i64) -> i64 {
    round(i128::from(33 * difference + 67 * mean), 200) as i64
}

/// The number that is output for quarters.
pub fn whole(quarters: i64) -> i64 {
    round(i128::from(quarters), 4) as i64
}

/// Enhancement: the final differences in quarters.
fn enhanced(frame: &Frame, greens: &PerSite<Green>) -> Differences {
    // D = green − 8·X
    let differences = PerSite::form(frame, |row, column| {
        let Green { eighths, decision } = greens.at(row, column);
        let difference = eighths - 8 * frame.sample(row, column);
        (decision != Decision::Measured).then_some(difference)
    });
    PerSite::form(frame, |row, column| {
        let difference = differences.at(row, column)?;
        // M
        let mean = weighted_mean(
            [
                differences.at(row, column + 2)?,
                differences.at(row, column - 2)?,
                differences.at(row + 2, column)?,
                differences.at(row - 2, column)?,
            ],
            gradients(frame, row, column),
        );
        Some(final_difference(difference, mean))
    })
}

/// The mean of the four diagonal sites, each under the sum of its two gradients.
fn diagonal_mean(frame: &Frame, differences: &Differences, row: i64, column: i64) -> Option<i64> {
    let [east, west, south, north] = gradients(frame, row, column);
    Some(weighted_mean(
        [
            differences.at(row - 1, column + 1)?,
            differences.at(row - 1, column - 1)?,
            differences.at(row + 1, column + 1)?,
            differences.at(row + 1, column - 1)?,
        ],
        [north + east, north + west, south + east, south + west],
    ))
}

/// The mean of the four direct neighbours under E, W, S, N.
fn direct_mean(frame: &Frame, differences: &Differences, row: i64, column: i64) -> Option<i64> {
    Some(weighted_mean(
        [
            differences.at(row, column + 1)?,
            differences.at(row, column - 1)?,
            differences.at(row + 1, column)?,
            differences.at(row - 1, column)?,
        ],
        gradients(frame, row, column),
    ))
}

/// Green minus `wanted`, red or blue, in quarters at every site.
fn green_minus(wanted: Colour, frame: &Frame, finals: &Differences) -> PerSite<i64> {
    let at_red_and_blue = PerSite::form(frame, |row, column| {
        let colour = frame.colour(row, column);
        if colour == Colour::Green {
            None
        } else if colour == wanted {
            finals.at(row, column)
        } else {
            diagonal_mean(frame, finals, row, column)
        }
    });
    PerSite::form(frame, |row, column| {
        at_red_and_blue
            .at(row, column)
            .or_else(|| direct_mean(frame, &at_red_and_blue, row, column))
            .expect("each direct neighbour of a green site is red or blue")
    })
}

/// The three planes and the decision map of a frame. The samples are developed as they came, and the black level is taken off each of the
/// three rounded numbers.
pub fn planes(frame: &Frame, black: i64) -> Planes {
    let greens = green(frame);
    let finals = enhanced(frame, &greens);
    let minus_red = green_minus(Colour::Red, frame, &finals);
    let minus_blue = green_minus(Colour::Blue, frame, &finals);
    let mut planes = Planes {
        red: Vec::new(),
        green: Vec::new(),
        blue: Vec::new(),
        map: Vec::new(),
    };
    for row in 0..frame.height as i64 {
        for column in 0..frame.width as i64 {
            let sample = frame.sample(row, column);
            // green in quarters: 4·G at a green site, otherwise the final green
            let quarters = 4 * sample + finals.at(row, column).unwrap_or(0);
            let mut red = whole(quarters - minus_red.at(row, column));
            let mut green = whole(quarters);
            let mut blue = whole(quarters - minus_blue.at(row, column));
            // A measured colour is output as measured.
            match frame.colour(row, column) {
                Colour::Red => red = sample,
                Colour::Green => green = sample,
                Colour::Blue => blue = sample,
            }
            planes.red.push(red - black);
            planes.green.push(green - black);
            planes.blue.push(blue - black);
            planes.map.push(greens.at(row, column).decision as u8);
        }
    }
    planes
}
