//! The proved curve against the independent one: answers, and every entry of both planes.

mod both;
#[path = "../../reference/tests/common/mod.rs"]
mod common;

use both::plane::{both_clamp, both_curve, clamped, UNCLAMPED};
use common::Generator;
use reference::calls::refused;

#[test]
fn each_of_the_1024_numbers() {
    let all: Vec<i32> = (0..1_024).collect();
    assert_eq!(both_curve(&all, &vec![-5; 1_024]), Ok(()));
    for number in 0..1_024 {
        assert_eq!(both_curve(&[number], &[-5]), Ok(()));
        assert_eq!(both_curve(&[number; 9], &[-5; 9]), Ok(()));
    }
}

#[test]
fn planes_of_every_length_to_300() {
    let mut generator = Generator::new(97);
    for length in (0..300).chain([4_096, 70_001]) {
        let plane = clamped(&mut generator, length);
        let before = generator.numbers(length);
        assert_eq!(both_curve(&plane, &before), Ok(()));
    }
}

#[test]
fn what_clamp_fills_is_accepted() {
    let mut generator = Generator::new(98);
    for length in 0..100 {
        let any = generator.numbers(length);
        let near: Vec<i32> = any.iter().map(|number| number % 2_000).collect();
        for plane in [any, near] {
            let mut held = vec![-5; length];
            assert_eq!(both_clamp(&plane, &held), Ok(()));
            assert_eq!(compare::clamp(&plane, &mut held), Ok(()));
            assert_eq!(both_curve(&held, &plane), Ok(()));
        }
    }
}

/// At every place, the first, the last and those between; then other such numbers behind it.
#[test]
fn a_number_that_is_not_clamped_at_every_place() {
    let mut generator = Generator::new(99);
    for unclamped in UNCLAMPED {
        for length in (1..40).chain([300]) {
            let mut plane = clamped(&mut generator, length);
            let before = generator.numbers(length);
            for place in 0..length {
                let number = std::mem::replace(&mut plane[place], unclamped);
                assert_eq!(both_curve(&plane, &before), refused(13, place));
                let mut several = plane.clone();
                for later in &mut several[place + 1..] {
                    *later = generator.one_of(&UNCLAMPED);
                }
                assert_eq!(both_curve(&several, &before), refused(13, place));
                plane[place] = number;
            }
        }
    }
}

/// Clamped or not: 4 comes before 13.
#[test]
fn lengths_that_differ() {
    let mut generator = Generator::new(116);
    for length in 0..40 {
        for other in (0..40).filter(|&other| other != length) {
            let before = generator.numbers(other);
            let plane = clamped(&mut generator, length);
            assert_eq!(both_curve(&plane, &before), refused(4, 0));
            let any = generator.numbers(length);
            assert_eq!(both_curve(&any, &before), refused(4, 0));
        }
    }
}
