//! Document 01, "Sites, phases, borders": frames, colours and reflected positions.

#[derive(Clone, Copy, Debug, PartialEq, Eq)]
pub enum Colour {
    Red,
    Green,
    Blue,
}

/// A frame is W, H, phase and the samples in raster order.
#[derive(Clone, Debug, PartialEq, Eq)]
pub struct Frame {
    pub width: usize,
    pub height: usize,
    pub phase: usize,
    pub samples: Vec<u16>,
}

impl Frame {
    /// Z(i,j), also outside the frame, where positions are reflected.
    pub fn sample(&self, row: i64, column: i64) -> i64 {
        let row = reflect(row, self.height as i64) as usize;
        let column = reflect(column, self.width as i64) as usize;
        i64::from(self.samples[row * self.width + column])
    }

    /// The colour at (i,j).
    pub fn colour(&self, row: i64, column: i64) -> Colour {
        colour(self.phase, row, column)
    }
}

/// The colour at (i,j) is that of RGGB at (i + p div 2, j + p mod 2), by parities.
pub fn colour(phase: usize, row: i64, column: i64) -> Colour {
    let row = row + (phase / 2) as i64;
    let column = column + (phase % 2) as i64;
    match (row.rem_euclid(2), column.rem_euclid(2)) {
        (0, 0) => Colour::Red,
        (1, 1) => Colour::Blue,
        _ => Colour::Green,
    }
}

/// −k reads k, and side−1+k reads side−1−k, as often as needed.
pub fn reflect(position: i64, side: i64) -> i64 {
    let last = side - 1;
    let mut inside = position;
    while inside < 0 || inside > last {
        inside = if inside < 0 {
            -inside
        } else {
            last - (inside - last)
        };
    }
    inside
}

/// One value for each site, read at reflected positions.
pub struct PerSite<T> {
    width: usize,
    height: usize,
    values: Vec<T>,
}

impl<T: Copy> PerSite<T> {
    /// Forms the value at each site, in raster order.
    pub fn form(frame: &Frame, value: impl Fn(i64, i64) -> T) -> Self {
        let mut values = Vec::with_capacity(frame.width * frame.height);
        for row in 0..frame.height {
            for column in 0..frame.width {
                values.push(value(row as i64, column as i64));
            }
        }
        PerSite {
            width: frame.width,
            height: frame.height,
            values,
        }
    }

    /// The value at (i,j), also outside the frame.
    pub fn at(&self, row: i64, column: i64) -> T {
        let row = reflect(row, self.height as i64) as usize;
        let column = reflect(column, self.width as i64) as usize;
        self.values[row * self.width + column]
    }
}
