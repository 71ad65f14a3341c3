//! Document 02, A2: the planes at a black level, beside those of samples with it taken off beforehand; the glaze cases at a level.

mod common;

use common::black::{held_up, level};
use common::demand3::{compare_levels, compare_taken_off};
use common::{developed_at, edge_frame, frame, grey, try_develop, Developed, Generator, KINDS};
use reference::calls::refused;
use reference::sites::Frame;

/// K1
fn document_frame() -> Frame {
    Frame {
        width: 2,
        height: 2,
        phase: 0,
        samples: vec![100, 40, 61, 200],
    }
}

#[test]
fn k1_at_40() {
    let planes = Developed {
        red: vec![60, 50, 71, 60],
        green: vec![11, 0, 21, 11],
        blue: vec![160, 150, 171, 160],
        map: vec![1, 0, 0, 1],
    };
    assert_eq!(developed_at(&document_frame(), 40), planes);
    compare_taken_off(try_develop, &document_frame(), 40);
}

/// As the case table of crates/cases has it.
#[test]
fn k1_at_100() {
    let planes = Developed {
        red: vec![0, -10, 11, 0],
        green: vec![-49, -60, -39, -49],
        blue: vec![100, 90, 111, 100],
        map: vec![1, 0, 0, 1],
    };
    assert_eq!(developed_at(&document_frame(), 100), planes);
}

/// Its darkest sample is 40, at place 1.
#[test]
fn k1_is_accepted_up_to_104() {
    assert_eq!(
        developed_at(&document_frame(), 104).green,
        [-53, -64, -43, -53]
    );
    for black in 105..=125 {
        assert_eq!(try_develop(&document_frame(), black), refused(12, 1));
    }
    assert_eq!(compare_levels(try_develop, &document_frame()), 105);
}

/// From 65 on its first sample, 0, is too dark.
#[test]
fn k10_planes_equal_the_mosaic_less_the_black_level() {
    for phase in 0..4 {
        let frame = edge_frame(phase);
        for black in [1, 63, 64] {
            let expected = grey(&frame, 3).plus(-(black as i32));
            assert_eq!(developed_at(&frame, black), expected, "phase {phase}");
        }
        for black in [65, 128, 255] {
            assert_eq!(try_develop(&frame, black), refused(12, 0));
        }
    }
}

/// Every kind of frame, fine glaze among them, with samples down to the black level.
#[test]
fn the_planes_are_those_of_samples_with_the_level_taken_off_beforehand() {
    let mut generator = Generator::new(100);
    for _ in 0..600 {
        for kind in KINDS {
            let black = level(&mut generator);
            let frame = held_up(frame(&mut generator, kind, 12), black);
            compare_taken_off(try_develop, &frame, black);
        }
    }
}

#[test]
fn the_map_is_the_same_at_every_level_and_the_numbers_are_those_less_it() {
    let mut generator = Generator::new(101);
    let mut least = 256;
    let mut most = 0;
    for _ in 0..8 {
        for kind in KINDS {
            let frame = frame(&mut generator, kind, 9);
            let accepted = compare_levels(try_develop, &frame);
            least = least.min(accepted);
            most = most.max(accepted);
        }
    }
    assert_eq!((least, most), (65, 256));
}
