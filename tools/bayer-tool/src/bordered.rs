//! Samples with a border around them, and the gradients formed from them.

use reference::sites::{reflect, Frame};

/// How positions outside of the frame are read.
#[derive(Clone, Copy, Debug, PartialEq, Eq)]
pub enum Border {
    /// As document 01 has it: reflected, and no edge repeated.
    Reflected,
    /// The same but past the last column, where the edge is repeated: W−1+k reads W−k.
    LastColumnRepeated,
}

impl Border {
    fn column(self, position: i64, width: i64) -> i64 {
        match self {
            Border::Reflected => reflect(position, width),
            Border::LastColumnRepeated => {
                let mut inside = position;
                while inside < 0 || inside >= width {
                    inside = if inside < 0 {
                        -inside
                    } else {
                        2 * width - 1 - inside
                    };
                }
                inside
            }
        }
    }
}

/// What a gradient reaches beyond its site.
const MARGIN: i64 = 4;

pub struct Bordered {
    stride: i64,
    values: Vec<i64>,
}

impl Bordered {
    pub fn new(frame: &Frame, border: Border) -> Self {
        let (width, height) = (frame.width as i64, frame.height as i64);
        let columns: Vec<i64> = (-MARGIN..width + MARGIN)
            .map(|column| border.column(column, width))
            .collect();
        let mut values = Vec::new();
        for row in -MARGIN..height + MARGIN {
            let start = reflect(row, height) * width;
            let at = |&column: &i64| i64::from(frame.samples[(start + column) as usize]);
            values.extend(columns.iter().map(at));
        }
        Bordered {
            stride: width + 2 * MARGIN,
            values,
        }
    }

    /// The sample at a position at most `MARGIN` outside of the frame.
    pub fn at(&self, row: i64, column: i64) -> i64 {
        self.values[((row + MARGIN) * self.stride + column + MARGIN) as usize]
    }

    /// E, W, S, N of a site.
    pub fn gradients(&self, row: i64, column: i64) -> [i64; 4] {
        let upright = |row, column| self.at(row, column);
        let exchanged = |row, column| self.at(column, row);
        [
            eastbound(upright, row, column),
            eastbound(upright, row, column - 2),
            eastbound(exchanged, column, row),
            eastbound(exchanged, column, row - 2),
        ]
    }
}

/// E(i,j) = 8·|Z(i,j) − Z(i,j+2)| + 2·a(i,j) + a(i−1,j) + a(i+1,j), where a(i,j) = |s(i,j)| + |s(i,j+1)|
fn eastbound(z: impl Fn(i64, i64) -> i64, i: i64, j: i64) -> i64 {
    let s = |i, j| {
        z(i, j - 2) - 2 * z(i, j - 1) + z(i, j) + z(i, j + 1) - 2 * z(i, j + 2) + z(i, j + 3)
    };
    let a = |i, j| i64::abs(s(i, j)) + i64::abs(s(i, j + 1));
    8 * (z(i, j) - z(i, j + 2)).abs() + 2 * a(i, j) + a(i - 1, j) + a(i + 1, j)
}
