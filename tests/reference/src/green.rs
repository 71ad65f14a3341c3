//! Document 01, "Green": the estimates and the two passes, in eighths; document 02, A1: how each green was decided.

use crate::gradients::gradients;
use crate::sites::{Colour, Frame, PerSite};

/// The three estimates of a site, and the three sums of the second pass, in this order.
pub const H: usize = 0;
pub const V: usize = 1;
pub const D: usize = 2;

/// What the first pass finds at a site.
#[derive(Clone, Copy, Debug, PartialEq, Eq)]
pub enum Outcome {
    Equal,
    StrongAcross,
    StrongDown,
    Weak,
}

/// How a site's green was decided. Its number is the site's entry in the decision map.
#[derive(Clone, Copy, Debug, PartialEq, Eq)]
pub enum Decision {
    Measured = 0,
    Equal = 1,
    StrongAcross = 2,
    StrongDown = 3,
    WeakAcross = 4,
    WeakDown = 5,
    WeakToMean = 6,
}

/// A site's green in eighths, and how it was decided.
#[derive(Clone, Copy, Debug, PartialEq, Eq)]
pub struct Green {
    pub eighths: i64,
    pub decision: Decision,
}

/// A red or blue site after the first pass.
#[derive(Clone, Copy, Debug)]
pub struct FirstPass {
    /// X
    pub sample: i64,
    /// gH, gV, gD
    pub estimates: [i64; 3],
    pub outcome: Outcome,
}

impl FirstPass {
    /// The first-pass green, if the site has one.
    pub fn green(&self) -> Option<i64> {
        match self.outcome {
            Outcome::Equal => Some(self.estimates[D]),
            Outcome::StrongAcross => Some(self.estimates[H]),
            Outcome::StrongDown => Some(self.estimates[V]),
            Outcome::Weak => None,
        }
    }

    /// r_k: the first-pass green or else the site's own gk, less 8·X.
    fn difference(&self, k: usize) -> i64 {
        self.green().unwrap_or(self.estimates[k]) - 8 * self.sample
    }
}

/// If h = v equal; otherwise strong if 10·max(h,v) > 17·min(h,v); any other weak.
pub fn outcome(h: i64, v: i64) -> Outcome {
    if h == v {
        Outcome::Equal
    } else if 10 * h.max(v) > 17 * h.min(v) {
        if h < v {
            Outcome::StrongAcross
        } else {
            Outcome::StrongDown
        }
    } else {
        Outcome::Weak
    }
}

/// gH, gV and gD = (gH + gV)/2 of a red or blue site.
fn estimates(frame: &Frame, row: i64, column: i64) -> [i64; 3] {
    let across = estimate(|step| frame.sample(row, column + step));
    let down = estimate(|step| frame.sample(row + step, column));
    [across, down, (across + down) / 2]
}

/// 8 times [(G left + G right)/2 + (2X − X two left − X two right)/4]
fn estimate(at: impl Fn(i64) -> i64) -> i64 {
    4 * (at(-1) + at(1)) + 2 * (2 * at(0) - at(-2) - at(2))
}

/// The first pass at every red or blue site; nothing at the green ones.
pub fn first_pass(frame: &Frame) -> PerSite<Option<FirstPass>> {
    PerSite::form(frame, |row, column| {
        if frame.colour(row, column) == Colour::Green {
            return None;
        }
        let [east, west, south, north] = gradients(frame, row, column);
        Some(FirstPass {
            sample: frame.sample(row, column),
            estimates: estimates(frame, row, column),
            outcome: outcome(east + west, south + north),
        })
    })
}

/// FH, FV and FD of a red or blue site.
pub fn sums(sites: &PerSite<Option<FirstPass>>, row: i64, column: i64) -> [i64; 3] {
    let difference = |k: usize, row: i64, column: i64| {
        let site = sites.at(row, column);
        site.expect("a red or blue site").difference(k)
    };
    let columns = |k: usize| -> i64 {
        let here = difference(k, row, column);
        let off = |t: i64| (here - difference(k, row, column + 2 * t)).abs();
        (-3..=3).map(off).sum()
    };
    let rows = |k: usize| -> i64 {
        let here = difference(k, row, column);
        let off = |t: i64| (here - difference(k, row + 2 * t, column)).abs();
        (-3..=3).map(off).sum()
    };
    [2 * columns(H), 2 * rows(V), columns(D) + rows(D)]
}

/// H if FH is below both FV and FD, V if FV is below both FH and FD, otherwise D.
pub fn choice(sums: [i64; 3]) -> usize {
    let [across, down, both] = sums;
    if across < down && across < both {
        H
    } else if down < across && down < both {
        V
    } else {
        D
    }
}

/// The decision at a red or blue site and the estimate that it takes: the first pass's or, where that is weak, the second's.
fn decided(outcome: Outcome, sums: impl FnOnce() -> [i64; 3]) -> (Decision, usize) {
    match outcome {
        Outcome::Equal => (Decision::Equal, D),
        Outcome::StrongAcross => (Decision::StrongAcross, H),
        Outcome::StrongDown => (Decision::StrongDown, V),
        Outcome::Weak => match choice(sums()) {
            H => (Decision::WeakAcross, H),
            V => (Decision::WeakDown, V),
            _ => (Decision::WeakToMean, D),
        },
    }
}

/// The green of every site and how it was decided; a green site's is measured.
pub fn green(frame: &Frame) -> PerSite<Green> {
    let sites = first_pass(frame);
    PerSite::form(frame, |row, column| match sites.at(row, column) {
        None => Green {
            eighths: 8 * frame.sample(row, column),
            decision: Decision::Measured,
        },
        Some(site) => {
            let (decision, taken) = decided(site.outcome, || sums(&sites, row, column));
            let eighths = site.estimates[taken];
            Green { eighths, decision }
        }
    })
}
