//! Exact fractions, for the second checks.

use std::cmp::Ordering;
use std::ops::{Add, Div, Mul, Sub};

/// A fraction in lowest terms with a denominator above 0.
#[derive(Clone, Copy, Debug, PartialEq, Eq)]
pub struct Fraction {
    above: i128,
    below: i128,
}

fn common_divisor(a: i128, b: i128) -> i128 {
    if b == 0 {
        a.abs()
    } else {
        common_divisor(b, a % b)
    }
}

impl Fraction {
    pub fn new(above: i128, below: i128) -> Self {
        assert_ne!(below, 0);
        let divisor = common_divisor(above, below) * below.signum();
        Fraction {
            above: above / divisor,
            below: below / divisor,
        }
    }

    pub fn whole(number: i128) -> Self {
        Fraction::new(number, 1)
    }

    pub fn abs(self) -> Self {
        Fraction::new(self.above.abs(), self.below)
    }

    /// The product, reduced crosswise first to keep its parts small.
    fn times(self, other: Fraction) -> Self {
        let first = Fraction::new(self.above, other.below);
        let second = Fraction::new(other.above, self.below);
        Fraction::new(first.above * second.above, first.below * second.below)
    }

    /// The only whole number m with m − 1/2 <= self < m + 1/2, found by trying.
    pub fn nearest_halves_upward(self) -> i128 {
        let half = Fraction::new(1, 2);
        let near = self.above / self.below;
        let tried = near - 2..=near + 2;
        let fits = |&whole: &i128| {
            let whole = Fraction::whole(whole);
            whole - half <= self && self < whole + half
        };
        let found: Vec<i128> = tried.filter(fits).collect();
        assert_eq!(found.len(), 1);
        found[0]
    }
}

impl Add for Fraction {
    type Output = Fraction;
    fn add(self, other: Fraction) -> Fraction {
        let above = self.above * other.below + other.above * self.below;
        Fraction::new(above, self.below * other.below)
    }
}

impl Sub for Fraction {
    type Output = Fraction;
    fn sub(self, other: Fraction) -> Fraction {
        self + Fraction::whole(-1) * other
    }
}

impl Mul for Fraction {
    type Output = Fraction;
    fn mul(self, other: Fraction) -> Fraction {
        self.times(other)
    }
}

impl Div for Fraction {
    type Output = Fraction;
    fn div(self, other: Fraction) -> Fraction {
        self.times(Fraction::new(other.below, other.above))
    }
}

impl PartialOrd for Fraction {
    fn partial_cmp(&self, other: &Fraction) -> Option<Ordering> {
        Some(self.cmp(other))
    }
}

impl Ord for Fraction {
    fn cmp(&self, other: &Fraction) -> Ordering {
        (self.above * other.below).cmp(&(other.above * self.below))
    }
}
