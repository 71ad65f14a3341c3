//! How a site's green was decided.

use crate::{ffi, stored};
use std::fmt;

/// What a byte of the decision map says. Across is along the row, down is along the column.
#[repr(u8)]
#[derive(Clone, Copy, Debug, PartialEq, Eq, PartialOrd, Ord, Hash)]
pub enum Decision {
    /// A green site: the sample.
    Measured = 0,
    /// The gradients across and down are equal: the mean of the estimates across and down.
    Equal = 1,
    /// The gradient across is much the lower: the estimate across.
    StrongAcross = 2,
    /// The gradient down is much the lower: the estimate down.
    StrongDown = 3,
    /// Neither is; resolved by the sites around: the estimate across.
    WeakAcross = 4,
    /// The same: the estimate down.
    WeakDown = 5,
    /// The same: the mean of both.
    WeakToMean = 6,
}

impl Decision {
    /// All decisions, in the order of their codes.
    pub const ALL: [Decision; 7] = [
        Decision::Measured,
        Decision::Equal,
        Decision::StrongAcross,
        Decision::StrongDown,
        Decision::WeakAcross,
        Decision::WeakDown,
        Decision::WeakToMean,
    ];

    /// The decision of a code; none for a code that no map holds.
    pub fn from_code(code: u8) -> Option<Self> {
        Self::ALL.get(usize::from(code)).copied()
    }

    pub const fn code(self) -> u8 {
        self as u8
    }

    /// A few words of English.
    pub fn text(self) -> &'static str {
        decision_text(self.code().into())
    }
}

impl fmt::Display for Decision {
    fn fmt(&self, to: &mut fmt::Formatter<'_>) -> fmt::Result {
        to.pad(self.text())
    }
}

/// What a decision code says, in a few words; a text also for a code that no map holds.
pub fn decision_text(code: usize) -> &'static str {
    stored(unsafe { ffi::bayer_decision_text(code) })
}
