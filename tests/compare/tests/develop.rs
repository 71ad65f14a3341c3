//! The proved develop against the independent one, at every kind of black level: answers, and every entry of every plane and of the
//! decision map.

mod both;
#[path = "../../reference/tests/common/mod.rs"]
mod common;

use both::{both_accept, library_try_develop};
use common::black::{bright_enough, frame_and_level, level};
use common::{edge_frame, frame_of_sides, grey, Generator, Kind, KINDS};

#[test]
fn random_frames_of_every_kind() {
    let seed = 80;
    let mut generator = Generator::new(seed);
    for turn in 0..600 {
        for kind in KINDS {
            let (frame, black) = frame_and_level(&mut generator, kind, 70);
            let at = format!("seed {seed}, turn {turn}, {kind:?}");
            both_accept(&at, &mut generator, &frame, black);
        }
    }
}

/// Frames of each width and height, of any kind, in every phase.
fn every_phase(seed: u64, sides: impl Iterator<Item = (usize, usize)>) {
    let mut generator = Generator::new(seed);
    for (width, height) in sides {
        for phase in 0..4 {
            let (kind, black) = (generator.one_of(&KINDS), level(&mut generator));
            let frame = frame_of_sides(&mut generator, kind, width, height);
            let mut frame = bright_enough(frame, black);
            frame.phase = phase;
            let at = format!("seed {seed}, {kind:?}");
            both_accept(&at, &mut generator, &frame, black);
        }
    }
}

#[test]
fn every_size_from_2_to_17_in_every_phase() {
    let sides = (2..=17).flat_map(|width| (2..=17).map(move |height| (width, height)));
    every_phase(81, sides);
}

/// 41 is the least side that has a site 20 from both edges: row numbers are formed in both ways in one frame.
#[test]
fn sides_about_41_in_every_phase() {
    let sides = (37..=44).flat_map(|side| [(side, 41), (41, side), (7, side)]);
    every_phase(101, sides);
}

#[test]
fn sides_of_512() {
    let seed = 82;
    let mut generator = Generator::new(seed);
    let kinds = [Kind::Random, Kind::FewValued, Kind::Smooth, Kind::Glaze];
    for (phase, kind) in kinds.into_iter().enumerate() {
        let (width, height) = generator.one_of(&[(512, 512), (512, 511), (511, 512), (513, 512)]);
        let black = generator.one_of(&[64, 65, 255]);
        let frame = frame_of_sides(&mut generator, kind, width, height);
        let mut frame = bright_enough(frame, black);
        frame.phase = phase;
        let at = format!("seed {seed}, {kind:?}");
        both_accept(&at, &mut generator, &frame, black);
    }
}

#[test]
fn the_greatest_width_and_the_greatest_height() {
    let seed = 83;
    let mut generator = Generator::new(seed);
    for short in [2, 3, 6, 13, 24] {
        for long in [4_095, 4_096] {
            for (width, height) in [(long, short), (short, long)] {
                let (kind, black) = (generator.one_of(&KINDS), level(&mut generator));
                let frame = frame_of_sides(&mut generator, kind, width, height);
                let frame = bright_enough(frame, black);
                let at = format!("seed {seed}, {kind:?}");
                both_accept(&at, &mut generator, &frame, black);
            }
        }
    }
}

/// And every red and blue site is strong down.
#[test]
fn k10_planes_equal_the_mosaic_less_the_black_level_in_every_phase() {
    for phase in 0..4 {
        let frame = edge_frame(phase);
        for black in [0, 1, 64] {
            let expected = grey(&frame, 3).plus(-(black as i32));
            let found = library_try_develop(&frame, black);
            assert_eq!(found, Ok(expected), "phase {phase} at {black}");
        }
    }
}
