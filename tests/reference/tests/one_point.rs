//! A second form of the method: point by point on the endlessly reflected mosaic, with
//! directions as steps and with fractions in place of eighths and quarters; the black level
//! comes off a number when it is formed.

mod common;

use common::black::frame_and_level;
use common::fraction::Fraction;
use common::{developed_at, Generator, KINDS};
use reference::sites::{Colour, Frame};
use std::cell::RefCell;
use std::collections::HashMap;

type Point = (i64, i64);

const EAST: Point = (0, 1);
const WEST: Point = (0, -1);
const SOUTH: Point = (1, 0);
const NORTH: Point = (-1, 0);
const DIRECTIONS: [Point; 4] = [EAST, WEST, SOUTH, NORTH];

/// The point reached by so many steps in a direction.
fn ahead(point: Point, steps: i64, direction: Point) -> Point {
    (point.0 + steps * direction.0, point.1 + steps * direction.1)
}

/// A green and the code of its decision.
type Decided = (Fraction, u8);

/// The first-pass green, if any, and the estimates across and down.
#[derive(Clone, Copy)]
struct Site {
    first: Option<Decided>,
    across: Fraction,
    down: Fraction,
}

struct Endless<'a> {
    frame: &'a Frame,
    black: i128,
    sites: RefCell<HashMap<Point, Site>>,
    greens: RefCell<HashMap<Point, Decided>>,
}

fn half() -> Fraction {
    Fraction::new(1, 2)
}

/// The nearest multiple of 1/parts, halves upward.
fn nearest(value: Fraction, parts: i128) -> Fraction {
    let scaled = value * Fraction::whole(parts);
    Fraction::new(scaled.nearest_halves_upward(), parts)
}

/// The mean with weights one over the gradient, not yet rounded.
fn mean(pairs: &[(Fraction, i64)]) -> Fraction {
    let zero = Fraction::whole(0);
    let flat: Vec<_> = pairs.iter().filter(|pair| pair.1 == 0).collect();
    if !flat.is_empty() {
        let sum = flat.iter().fold(zero, |sum, pair| sum + pair.0);
        return sum / Fraction::whole(flat.len() as i128);
    }
    let weight = |gradient: i64| Fraction::new(1, gradient.into());
    let weights = pairs.iter().fold(zero, |sum, pair| sum + weight(pair.1));
    let shares = pairs.iter().map(|pair| pair.0 * (weight(pair.1) / weights));
    shares.fold(zero, |sum, share| sum + share)
}

impl Endless<'_> {
    fn z(&self, point: Point) -> i64 {
        self.frame.sample(point.0, point.1)
    }

    fn sample(&self, point: Point) -> Fraction {
        Fraction::whole(self.z(point).into())
    }

    /// The gradient from a point in a direction, times 8.
    fn gradient(&self, point: Point, direction: Point) -> i64 {
        let aside = (direction.1, direction.0);
        let mut total = 8 * (self.z(point) - self.z(ahead(point, 2, direction))).abs();
        for (line, share) in [(0, 2), (-1, 1), (1, 1)] {
            for start in [0, 1] {
                let taps = [(-2, 1), (-1, -2), (0, 1), (1, 1), (2, -2), (3, 1)];
                let tap = |(step, factor): (i64, i64)| {
                    let from = ahead(point, line, aside);
                    factor * self.z(ahead(from, start + step, direction))
                };
                total += share * taps.map(tap).iter().sum::<i64>().abs();
            }
        }
        total
    }

    /// The estimate of green along a direction and its opposite.
    fn estimate(&self, point: Point, direction: Point) -> Fraction {
        let at = |steps| self.sample(ahead(point, steps, direction));
        let greens = (at(-1) + at(1)) * half();
        greens + (at(0) + at(0) - at(-2) - at(2)) * Fraction::new(1, 4)
    }

    fn site(&self, point: Point) -> Site {
        if let Some(&site) = self.sites.borrow().get(&point) {
            return site;
        }
        let (across, down) = (self.estimate(point, EAST), self.estimate(point, SOUTH));
        let h = self.gradient(point, EAST) + self.gradient(point, WEST);
        let v = self.gradient(point, SOUTH) + self.gradient(point, NORTH);
        let first = if h == v {
            Some(((across + down) * half(), 1))
        } else if h < v && 17 * h < 10 * v {
            Some((across, 2))
        } else if v < h && 17 * v < 10 * h {
            Some((down, 3))
        } else {
            None
        };
        let site = Site {
            first,
            across,
            down,
        };
        self.sites.borrow_mut().insert(point, site);
        site
    }

    /// The sum of the distances of differences along a direction and its opposite.
    fn spread(&self, point: Point, direction: Point, own: fn(Site) -> Fraction) -> Fraction {
        let difference = |point: Point| {
            let site = self.site(point);
            site.first.map_or_else(|| own(site), |found| found.0) - self.sample(point)
        };
        let mut total = Fraction::whole(0);
        for steps in [-6, -4, -2, 2, 4, 6] {
            let other = difference(ahead(point, steps, direction));
            total = total + (difference(point) - other).abs();
        }
        total
    }

    /// The green of a red or blue site and its code.
    fn green(&self, point: Point) -> Decided {
        if let Some(&green) = self.greens.borrow().get(&point) {
            return green;
        }
        let site = self.site(point);
        let middle = |site: Site| (site.across + site.down) * half();
        let green = site.first.unwrap_or_else(|| {
            let twice = Fraction::whole(2);
            let across = twice * self.spread(point, EAST, |site| site.across);
            let down = twice * self.spread(point, SOUTH, |site| site.down);
            let both = self.spread(point, EAST, middle) + self.spread(point, SOUTH, middle);
            if across < down.min(both) {
                (site.across, 4)
            } else if down < across.min(both) {
                (site.down, 5)
            } else {
                (middle(site), 6)
            }
        });
        self.greens.borrow_mut().insert(point, green);
        green
    }

    /// The final difference at a red or blue site.
    fn enhanced(&self, point: Point) -> Fraction {
        let difference = |point: Point| self.green(point).0 - self.sample(point);
        let pair = |direction: Point| {
            let off = difference(ahead(point, 2, direction));
            (off, self.gradient(point, direction))
        };
        let around = nearest(mean(&DIRECTIONS.map(pair)), 8);
        let own = difference(point) * Fraction::new(33, 100);
        nearest(own + around * Fraction::new(67, 100), 4)
    }

    /// Green minus a colour at any site.
    fn minus(&self, wanted: Colour, point: Point) -> Fraction {
        let colour = self.frame.colour(point.0, point.1);
        if colour == wanted {
            return self.enhanced(point);
        }
        if colour == Colour::Green {
            let pair = |direction: Point| {
                let off = self.minus(wanted, ahead(point, 1, direction));
                (off, self.gradient(point, direction))
            };
            return nearest(mean(&DIRECTIONS.map(pair)), 4);
        }
        let mut pairs = Vec::new();
        for down in [SOUTH, NORTH] {
            for along in [EAST, WEST] {
                let corner = ahead(ahead(point, 1, down), 1, along);
                let gradient = self.gradient(point, down) + self.gradient(point, along);
                pairs.push((self.enhanced(corner), gradient));
            }
        }
        nearest(mean(&pairs), 4)
    }

    /// The three numbers at a point.
    fn numbers(&self, point: Point) -> [i128; 3] {
        let green = match self.frame.colour(point.0, point.1) {
            Colour::Green => self.sample(point),
            _ => self.sample(point) + self.enhanced(point),
        };
        let (red, blue) = (
            green - self.minus(Colour::Red, point),
            green - self.minus(Colour::Blue, point),
        );
        [red, green, blue].map(|number| number.nearest_halves_upward() - self.black)
    }

    /// The code at a point.
    fn code(&self, point: Point) -> u8 {
        match self.frame.colour(point.0, point.1) {
            Colour::Green => 0,
            _ => self.green(point).1,
        }
    }
}

#[test]
fn develop_agrees_with_the_second_form() {
    let mut generator = Generator::new(40);
    for turn in 0..160 {
        let (frame, black) = frame_and_level(&mut generator, KINDS[turn % KINDS.len()], 12);
        let endless = Endless {
            frame: &frame,
            black: black as i128,
            sites: RefCell::new(HashMap::new()),
            greens: RefCell::new(HashMap::new()),
        };
        let planes = developed_at(&frame, black);
        for site in 0..frame.samples.len() {
            let point = ((site / frame.width) as i64, (site % frame.width) as i64);
            let found = [planes.red[site], planes.green[site], planes.blue[site]];
            let expected = endless.numbers(point);
            assert_eq!(found.map(i128::from), expected, "{point:?} of {frame:?}");
            let code = endless.code(point);
            assert_eq!(planes.map[site], code, "code at {point:?} of {frame:?}");
        }
    }
}
