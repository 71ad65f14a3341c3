//! The method with the two faults of the old code: the first of equal sums is taken, and one edge is repeated. Not proved, and not of the
//! library: it shows what a turn did. Without the faults it is the method, which the tests hold it to.

use crate::bordered::{Border, Bordered};
use crate::frames::Planes;
use crate::progress::Progress;
use reference::green::{choice, outcome, Outcome, D, H, V};
use reference::planes::{final_difference, weighted_mean, whole};
use reference::sites::{Colour, Frame, PerSite};

/// What the old code and document 01 differ in.
#[derive(Clone, Copy, Debug)]
pub struct Rules {
    pub border: Border,
    /// Of equal sums the first direction is taken, across before down; otherwise both.
    pub first_of_equal: bool,
}

pub const OLD: Rules = Rules {
    border: Border::LastColumnRepeated,
    first_of_equal: true,
};

pub const DOCUMENT: Rules = Rules {
    border: Border::Reflected,
    first_of_equal: false,
};

type Differences = PerSite<i64>;

/// The differences r_H, r_V, r_D of a site, and whether it is weak.
type Site = ([i64; 3], bool);

impl Rules {
    /// The direction that the first pass finds.
    fn first(self, h: i64, v: i64) -> Option<usize> {
        match outcome(h, v) {
            Outcome::Equal if self.first_of_equal => Some(H),
            Outcome::Equal => Some(D),
            Outcome::StrongAcross => Some(H),
            Outcome::StrongDown => Some(V),
            Outcome::Weak => None,
        }
    }

    /// The direction that the second pass takes at a weak site.
    fn second(self, sums: [i64; 3]) -> usize {
        let least = sums.into_iter().min();
        let first = sums.iter().position(|&sum| Some(sum) == least);
        match first {
            Some(first) if self.first_of_equal => first,
            _ => choice(sums),
        }
    }
}

/// gH or gV less 8·X.
fn estimate(z: impl Fn(i64) -> i64) -> i64 {
    4 * (z(-1) + z(1)) + 2 * (2 * z(0) - z(-2) - z(2)) - 8 * z(0)
}

struct Work<'a> {
    frame: &'a Frame,
    rules: Rules,
    samples: Bordered,
    progress: Progress,
}

impl Work<'_> {
    /// A value for each site.
    fn each<T: Copy>(&self, what: &str, value: impl Fn(i64, i64) -> T) -> PerSite<T> {
        self.progress.step(what);
        PerSite::form(self.frame, value)
    }

    fn is_green(&self, row: i64, column: i64) -> bool {
        self.frame.colour(row, column) == Colour::Green
    }

    fn first_pass(&self) -> PerSite<Site> {
        self.each("the old way, first pass", |row, column| {
            if self.is_green(row, column) {
                return ([0; 3], false);
            }
            let [e, w, s, n] = self.samples.gradients(row, column);
            let across = estimate(|step| self.samples.at(row, column + step));
            let down = estimate(|step| self.samples.at(row + step, column));
            let estimates = [across, down, (across + down) / 2];
            match self.rules.first(e + w, s + n) {
                Some(direction) => ([estimates[direction]; 3], false),
                None => (estimates, true),
            }
        })
    }

    /// D
    fn second_pass(&self, sites: &PerSite<Site>) -> Differences {
        self.each("the old way, second pass", |row, column| {
            let (here, weak) = sites.at(row, column);
            if !weak {
                return here[D];
            }
            let off = |k: usize, down: i64, along: i64| {
                let steps = (-3..=3_i64).map(|t| (row + 2 * t * down, column + 2 * t * along));
                let there = steps.map(|(row, column)| sites.at(row, column).0[k]);
                there.map(|there| (here[k] - there).abs()).sum::<i64>()
            };
            let sums = [
                2 * off(H, 0, 1),
                2 * off(V, 1, 0),
                off(D, 0, 1) + off(D, 1, 0),
            ];
            here[self.rules.second(sums)]
        })
    }

    /// The final differences in quarters.
    fn enhanced(&self, differences: &Differences) -> Differences {
        self.each("the old way, enhancement", |row, column| {
            if self.is_green(row, column) {
                return 0;
            }
            let near = beside(differences, row, column, 2);
            let mean = weighted_mean(near, self.samples.gradients(row, column));
            final_difference(differences.at(row, column), mean)
        })
    }

    /// The plane of red or of blue.
    fn plane(&self, wanted: Colour, finals: &Differences) -> Vec<i32> {
        let minus = self.each("the old way, diagonals", |row, column| {
            let colour = self.frame.colour(row, column);
            if colour == Colour::Green || colour == wanted {
                return finals.at(row, column);
            }
            let [e, w, s, n] = self.samples.gradients(row, column);
            let corner = |down, along| finals.at(row + down, column + along);
            let corners = [corner(-1, 1), corner(-1, -1), corner(1, 1), corner(1, -1)];
            weighted_mean(corners, [n + e, n + w, s + e, s + w])
        });
        self.output("the old way, a plane", |row, column| {
            let sample = self.frame.sample(row, column);
            let colour = self.frame.colour(row, column);
            if colour == wanted {
                return sample;
            }
            let difference = if colour == Colour::Green {
                let near = beside(&minus, row, column, 1);
                weighted_mean(near, self.samples.gradients(row, column))
            } else {
                minus.at(row, column)
            };
            whole(4 * sample + finals.at(row, column) - difference)
        })
    }

    /// Of the number at each site.
    fn output(&self, what: &str, number: impl Fn(i64, i64) -> i64) -> Vec<i32> {
        let numbers = self.each(what, number);
        let (width, height) = (self.frame.width as i64, self.frame.height as i64);
        (0..width * height)
            .map(|site| numbers.at(site / width, site % width) as i32)
            .collect()
    }
}

/// The values so many steps east, west, south and north.
fn beside(values: &Differences, row: i64, column: i64, steps: i64) -> [i64; 4] {
    [
        values.at(row, column + steps),
        values.at(row, column - steps),
        values.at(row + steps, column),
        values.at(row - steps, column),
    ]
}

/// The planes of an admitted frame by these rules, unclamped.
pub fn develop(frame: &Frame, rules: Rules) -> Planes {
    let work = Work {
        frame,
        rules,
        samples: Bordered::new(frame, rules.border),
        progress: Progress::of(frame.samples.len()),
    };
    let finals = work.enhanced(&work.second_pass(&work.first_pass()));
    let green = work.output("the old way, green", |row, column| {
        whole(4 * frame.sample(row, column) + finals.at(row, column))
    });
    let red = work.plane(Colour::Red, &finals);
    [red, green, work.plane(Colour::Blue, &finals)]
}
