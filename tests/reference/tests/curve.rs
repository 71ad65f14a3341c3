//! Document 02, A4: the entries of the tone curve, and every answer of its call, with all that was lent compared afterwards.

mod common;

use common::{must_refuse, with, Call, Generator};
use reference::calls::{clamp, curve, returned};
use reference::curve::{entry, may_be_entry, ENTRIES};

fn entries() -> Vec<i64> {
    (0..ENTRIES).map(entry).collect()
}

#[test]
fn entries_by_hand() {
    let by_hand = [(0, 0), (1, 32), (2, 45), (3, 55), (4, 64), (5, 72)];
    let near_the_end = [(1_021, 1_022), (1_022, 1_022), (1_023, 1_023)];
    for (v, t) in by_hand.into_iter().chain(near_the_end) {
        assert_eq!(entry(v), t, "entry {v}");
    }
}

#[test]
fn no_entry_is_below_the_one_before_it() {
    let entries = entries();
    assert_eq!(entries.len(), 1_024);
    assert!(entries.windows(2).all(|pair| pair[0] <= pair[1]));
}

#[test]
fn no_entry_is_below_its_v() {
    assert!((0..).zip(entries()).all(|(v, t)| v <= t));
}

#[test]
fn just_one_number_may_be_each_entry() {
    for v in 0..ENTRIES {
        let found: Vec<i64> = (-3_000..=3_000).filter(|&t| may_be_entry(v, t)).collect();
        assert_eq!(found, [entry(v)], "entry {v}");
    }
}

/// No root of 1,023·v lies half way between two numbers.
#[test]
fn each_entry_is_the_nearest_to_the_root_of_1023_v() {
    for v in 0..ENTRIES {
        let root = ((1_023 * v) as f64).sqrt();
        assert_eq!(entry(v), root.round() as i64, "entry {v}");
    }
}

/// All that is lent to one call of curve.
#[derive(Clone, Debug, PartialEq)]
struct Lent {
    plane: Vec<i32>,
    curved: Vec<i32>,
}

impl Call for Lent {
    fn call(&mut self) -> (u32, usize) {
        returned(&curve(&self.plane, &mut self.curved))
    }
}

/// A call of so many numbers that is accepted.
fn lent(generator: &mut Generator, length: usize) -> Lent {
    Lent {
        plane: (0..length).map(|_| generator.sample().into()).collect(),
        curved: generator.numbers(length),
    }
}

#[test]
fn every_number_is_exchanged_for_its_entry() {
    let mut generator = Generator::new(110);
    for length in 0..200 {
        let mut lent = lent(&mut generator, length);
        let plane = lent.plane.clone();
        assert_eq!(lent.call(), (0, 0));
        assert_eq!(lent.plane, plane);
        let expected = plane.iter().map(|&v| entry(v.into()) as i32);
        assert_eq!(lent.curved, expected.collect::<Vec<_>>());
    }
}

#[test]
fn what_clamp_fills_is_accepted() {
    let mut generator = Generator::new(111);
    for _ in 0..100 {
        let any = generator.numbers(50);
        let near: Vec<i32> = any.iter().map(|number| number % 2_000).collect();
        let mut lent = lent(&mut generator, 50);
        assert_eq!(clamp(&near, &mut lent.plane), Ok(()));
        assert_eq!(lent.call(), (0, 0));
    }
}

/// Also where a number is refused by 13 besides.
#[test]
fn refusal_4_for_another_length() {
    let mut generator = Generator::new(112);
    for length in 0..20 {
        let valid = lent(&mut generator, length);
        for other in (0..40).filter(|&other| other != length) {
            let lent = with(&valid, |lent| lent.curved.resize(other, 7));
            must_refuse(with(&lent, |lent| lent.plane.fill(-1)), 4, 0);
            must_refuse(lent, 4, 0);
        }
    }
}

#[test]
fn refusal_13_for_the_first_number_below_0_or_above_1023() {
    let mut generator = Generator::new(113);
    for outside in [-1, 1_024, 65_536, -65_536, i32::MIN, i32::MAX] {
        for length in 1..30 {
            let valid = lent(&mut generator, length);
            for place in 0..length {
                let lent = with(&valid, |lent| lent.plane[place] = outside);
                let later = with(&lent, |lent| lent.plane[place + 1..].fill(-5));
                must_refuse(lent, 13, place);
                must_refuse(later, 13, place);
            }
        }
    }
}
