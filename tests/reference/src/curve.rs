//! Document 02, A4: the square-root tone curve, each entry by search.

/// "a curve of 1,024 entries"
pub const ENTRIES: i64 = 1024;

/// "entry 0 is 0, and for v from 1 to 1,023 the entry t satisfies (2t − 1)² < 4,092·v < (2t + 1)²": whether t may be entry v.
pub fn may_be_entry(v: i64, t: i64) -> bool {
    if v == 0 {
        return t == 0;
    }
    (2 * t - 1).pow(2) < 4_092 * v && 4_092 * v < (2 * t + 1).pow(2)
}

/// Entry v of the curve: the first number from 0 up that may be it.
pub fn entry(v: i64) -> i64 {
    (0..ENTRIES)
        .find(|&t| may_be_entry(v, t))
        .expect("v is from 0 to 1,023")
}
