//! The proved write against the independent one: answers, and every byte of the lent file.

mod both;
#[path = "../../reference/tests/common/mod.rs"]
mod common;

use both::write::{both_write, disturb_frame, file_length};
use common::{frame_of_sides, Generator, Kind, KINDS};

#[test]
fn every_size_from_2_to_24() {
    let mut generator = Generator::new(1);
    for width in 2..=24 {
        for height in 2..=24 {
            let kind = generator.one_of(&KINDS);
            let frame = frame_of_sides(&mut generator, kind, width, height);
            assert_eq!(both_write(&frame, file_length(&frame)), Ok(()));
        }
    }
}

#[test]
fn sides_to_64_by_48() {
    let mut generator = Generator::new(2);
    for _ in 0..300 {
        let (width, height) = (generator.size(2, 64), generator.size(2, 48));
        let frame = frame_of_sides(&mut generator, Kind::Random, width, height);
        assert_eq!(both_write(&frame, file_length(&frame)), Ok(()));
    }
}

#[test]
fn at_below_and_above_multiples_of_400() {
    let mut generator = Generator::new(3);
    for (width, height) in compare::SIDES_NEAR_MULTIPLES_OF_400 {
        let frame = frame_of_sides(&mut generator, Kind::Random, width, height);
        assert_eq!(both_write(&frame, file_length(&frame)), Ok(()));
    }
}

#[test]
fn every_refusal_and_several_faults_at_once() {
    let mut generator = Generator::new(4);
    let mut seen = [0; 6];
    for _ in 0..4000 {
        let kind = generator.one_of(&KINDS);
        let (width, height) = (generator.size(2, 12), generator.size(2, 12));
        let mut frame = frame_of_sides(&mut generator, kind, width, height);
        let length = disturb_frame(&mut generator, &mut frame);
        seen[both_write(&frame, length).map_or_else(|why| why.number as usize, |()| 0)] += 1;
    }
    assert!(seen.iter().all(|&count| count >= 20), "{seen:?}");
}
