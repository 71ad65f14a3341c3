//! One call that fills a plane from a plane, clamp or curve, given to both implementations, and numbers that are not clamped.

use crate::common::Generator;
use compare::guarded::{Guarded, Touching};
use reference::calls::{self, Refusal};

type Call = fn(&[i32], &mut [i32]) -> Result<(), Refusal>;

/// Below 0 and above 1,023, some of them small where the upper bits are cut.
pub const UNCLAMPED: [i32; 8] = [
    -1,
    -1_024,
    -65_536,
    i32::MIN,
    1_024,
    2_048,
    65_536,
    i32::MAX,
];

/// Both must answer alike and leave alike every entry.
fn both(independent: Call, library: Call, plane: &[i32], before: &[i32]) -> Result<(), Refusal> {
    let mut expected_filled = before.to_vec();
    let expected = independent(plane, &mut expected_filled);
    for touching in [Touching::Before, Touching::After] {
        let lent = Guarded::new(plane, touching);
        let mut filled = Guarded::new(before, touching);
        let answer = library(&lent, &mut filled);
        assert_eq!(answer, expected, "{plane:?}");
        assert!(filled[..] == expected_filled[..], "{plane:?}");
        assert!(lent[..] == *plane, "{plane:?}");
        assert!(lent.canaries_stand() && filled.canaries_stand());
    }
    if expected.is_err() {
        assert!(
            expected_filled == before,
            "a refusal leaves the plane: {plane:?}"
        );
    }
    expected
}

pub fn both_clamp(plane: &[i32], before: &[i32]) -> Result<(), Refusal> {
    both(calls::clamp, compare::clamp, plane, before)
}

pub fn both_curve(plane: &[i32], before: &[i32]) -> Result<(), Refusal> {
    both(calls::curve, compare::curve, plane, before)
}

/// A clamped plane.
pub fn clamped(generator: &mut Generator, length: usize) -> Vec<i32> {
    (0..length).map(|_| generator.sample().into()).collect()
}
