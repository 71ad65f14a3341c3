//! The plain and the optimised version against the independent implementation, at black levels from 0 to 255: every entry of every plane
//! and of the map; and the optimised curve against the independent one.

#[path = "../../tests/reference/tests/common/mod.rs"]
mod common;

use bench::optimised::{curve::curve, Optimised};
use bench::plain::Plain;
use bench::versions::Version;
use common::black::{bright_enough, frame_and_level, level};
use common::{developed_at, frame_of_sides, Developed, Generator, Kind, KINDS};
use reference::calls;
use reference::sites::Frame;

/// The planes and the map of a version at a black level, from buffers that hold something else.
fn developed_by(version: &mut impl Version, frame: &Frame, black: usize) -> Developed {
    let other = vec![-5_555; frame.samples.len()];
    let mut filled = Developed {
        red: other.clone(),
        green: other.clone(),
        blue: other,
        map: vec![99; frame.samples.len()],
    };
    let lent = [
        &mut filled.red[..],
        &mut filled.green[..],
        &mut filled.blue[..],
    ];
    version.develop(frame.phase, black, &frame.samples, lent, &mut filled.map);
    filled
}

fn compare<V: Version>(frame: &Frame, black: usize) {
    let mut version = V::new(frame.width, frame.height);
    assert!(
        developed_by(&mut version, frame, black) == developed_at(frame, black),
        "{frame:?} at {black}"
    );
}

fn compare_random_frames<V: Version>(seed: u64, greatest_side: usize, of_each_kind: usize) {
    let mut generator = Generator::new(seed);
    for _ in 0..of_each_kind {
        for kind in KINDS {
            let (frame, black) = frame_and_level(&mut generator, kind, greatest_side);
            compare::<V>(&frame, black);
        }
    }
}

fn compare_small_frames<V: Version>(seed: u64) {
    let mut generator = Generator::new(seed);
    for (width, height) in (2..=9).flat_map(|width| (2..=9).map(move |height| (width, height))) {
        for phase in 0..4 {
            let black = level(&mut generator);
            let frame = frame_of_sides(&mut generator, Kind::FewValued, width, height);
            let mut frame = bright_enough(frame, black);
            frame.phase = phase;
            compare::<V>(&frame, black);
        }
    }
}

fn compare_with_used_buffers<V: Version>(seed: u64) {
    let mut generator = Generator::new(seed);
    let mut version = V::new(33, 18);
    for _ in 0..60 {
        let (kind, black) = (generator.one_of(&KINDS), level(&mut generator));
        let frame = bright_enough(frame_of_sides(&mut generator, kind, 33, 18), black);
        assert!(developed_by(&mut version, &frame, black) == developed_at(&frame, black));
    }
}

#[test]
fn plain_on_random_frames_of_every_kind() {
    compare_random_frames::<Plain>(70, 24, 300);
}

#[test]
fn plain_on_every_small_size_and_phase() {
    compare_small_frames::<Plain>(71);
}

/// What an earlier call left in the buffers is not read.
#[test]
fn plain_with_used_buffers() {
    compare_with_used_buffers::<Plain>(72);
}

#[test]
fn optimised_on_random_frames_of_every_kind() {
    compare_random_frames::<Optimised>(73, 24, 600);
}

/// Wide enough for every loop's whole steps and what they leave over.
#[test]
fn optimised_on_wider_frames() {
    compare_random_frames::<Optimised>(74, 120, 20);
}

#[test]
fn optimised_on_every_small_size_and_phase() {
    compare_small_frames::<Optimised>(75);
}

#[test]
fn optimised_with_used_buffers() {
    compare_with_used_buffers::<Optimised>(76);
}

fn compare_curves(plane: &[i32], before: &[i32]) {
    let (mut expected, mut filled) = (before.to_vec(), before.to_vec());
    let answer = calls::curve(plane, &mut expected);
    assert_eq!(curve(plane, &mut filled), answer, "{plane:?}");
    assert!(filled == expected, "{plane:?}");
}

#[test]
fn the_optimised_curve_at_every_number() {
    let all: Vec<i32> = (0..1_024).collect();
    compare_curves(&all, &[-5; 1_024]);
    for number in (-1_100..2_100).chain([i32::MIN, i32::MAX, -65_536, 65_536]) {
        compare_curves(&[7, number, 1_023, -1], &[-5; 4]);
        compare_curves(&[number], &[-5]);
    }
}

#[test]
fn the_optimised_curve_on_planes_of_every_length() {
    let mut generator = Generator::new(77);
    for length in 0..200 {
        let mut plane: Vec<i32> = (0..length).map(|_| generator.sample().into()).collect();
        let before = generator.numbers(length);
        compare_curves(&plane, &before);
        compare_curves(&plane, &generator.numbers(length + 1));
        for number in [-1, 1_024] {
            let place = generator.size(0, length);
            if let Some(entry) = plane.get_mut(place) {
                *entry = number;
            }
            compare_curves(&plane, &before);
        }
        compare_curves(&plane, &before[..length / 2]);
    }
}
