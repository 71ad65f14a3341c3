//! The proved clamp against the independent one: answers, and every entry of both planes.

mod both;
#[path = "../../reference/tests/common/mod.rs"]
mod common;

use both::plane::both_clamp;
use common::Generator;
use reference::calls::refused;

#[test]
fn the_ends_of_the_numbers_and_of_the_range() {
    let mut plane: Vec<i32> = [i32::MIN, 0, 1023, i32::MAX]
        .into_iter()
        .flat_map(|end| (-3..=3).map(move |off| end.saturating_add(off)))
        .collect();
    plane.extend([-2_046, 3_069, -65_536, 65_535]);
    for start in 0..plane.len() {
        let part = &plane[start..];
        assert_eq!(both_clamp(part, &vec![-5; part.len()]), Ok(()));
    }
}

#[test]
fn planes_of_every_length_to_300() {
    let mut generator = Generator::new(94);
    for length in (0..300).chain([4_096, 70_001]) {
        let any = generator.numbers(length);
        let before = generator.numbers(length);
        assert_eq!(both_clamp(&any, &before), Ok(()));
        let near: Vec<i32> = any.iter().map(|number| number % 2_000).collect();
        assert_eq!(both_clamp(&near, &before), Ok(()));
    }
}

#[test]
fn lengths_that_differ() {
    let mut generator = Generator::new(95);
    for length in 0..40 {
        for other in (0..40).filter(|&other| other != length) {
            let plane = generator.numbers(length);
            let before = generator.numbers(other);
            assert_eq!(both_clamp(&plane, &before), refused(4, 0));
        }
    }
}
