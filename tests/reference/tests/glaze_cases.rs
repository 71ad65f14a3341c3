//! K1 to K12 of document 01, "Glaze cases".

mod common;

use common::{developed, edge_frame, grey, Developed};
use reference::frame_file::{check, pack, unpack};
use reference::gradients::gradients;
use reference::green::{outcome, FirstPass, Outcome};
use reference::planes::{weighted_mean, whole};
use reference::sites::Frame;

/// The green, out of gH = 16, gV = 32, gD = 24, that the first pass takes.
fn taken(h: i64, v: i64) -> Option<i64> {
    let site = FirstPass {
        sample: 5,
        estimates: [16, 32, 24],
        outcome: outcome(h, v),
    };
    site.green()
}

#[test]
fn k1_the_document_frame() {
    let frame = Frame {
        width: 2,
        height: 2,
        phase: 0,
        samples: vec![100, 40, 61, 200],
    };
    let planes = Developed {
        red: vec![100, 90, 111, 100],
        green: vec![51, 40, 61, 51],
        blue: vec![200, 190, 211, 200],
        // all gradients of a frame of 2 by 2 are 0
        map: vec![1, 0, 0, 1],
    };
    assert_eq!(developed(&frame), planes);
}

#[test]
fn k2_17_and_10_is_weak() {
    assert_eq!(outcome(17, 10), Outcome::Weak);
    assert_eq!(outcome(10, 17), Outcome::Weak);
    assert_eq!(taken(17, 10), None);
}

#[test]
fn k3_18_and_10_is_strong_down() {
    assert_eq!(outcome(18, 10), Outcome::StrongDown);
    assert_eq!(outcome(10, 18), Outcome::StrongAcross);
    assert_eq!(taken(18, 10), Some(32));
    assert_eq!(taken(10, 18), Some(16));
}

#[test]
fn k4_7_and_0_is_strong() {
    assert_eq!(outcome(7, 0), Outcome::StrongDown);
    assert_eq!(outcome(0, 7), Outcome::StrongAcross);
}

#[test]
fn k5_0_and_0_takes_the_diagonal_estimate() {
    assert_eq!(outcome(0, 0), Outcome::Equal);
    assert_eq!(taken(0, 0), Some(24));
}

#[test]
fn k6_zero_gradients_count_alone() {
    assert_eq!(weighted_mean([8, 100, 3, 100], [0, 5, 0, 5]), 6);
}

#[test]
fn k7_halves_go_upward_below_zero() {
    assert_eq!(weighted_mean([-8, 100, -3, 100], [0, 5, 0, 5]), -5);
}

#[test]
fn k8_weights_are_one_over_the_gradient() {
    assert_eq!(weighted_mean([4, 0, 0, 0], [1, 2, 4, 4]), 2);
}

#[test]
fn k9_quarters_to_whole_numbers() {
    assert_eq!([-2, -6, 2].map(whole), [0, -1, 1]);
}

#[test]
fn k10_eastbound_gradients_at_an_edge() {
    let frame = edge_frame(0);
    let eastbound = |column| gradients(&frame, 0, column)[0];
    assert_eq!([0, 2, 3].map(eastbound), [3_200, 9_600, 9_600]);
}

/// And every red and blue site is strong down: h is above v = 0.
#[test]
fn k10_planes_equal_the_mosaic_in_every_phase() {
    for phase in 0..4 {
        let frame = edge_frame(phase);
        assert_eq!(developed(&frame), grey(&frame, 3), "phase {phase}");
    }
}

#[test]
fn k11_four_samples_in_five_bytes() {
    assert_eq!(pack([1023, 0, 1, 2]), [255, 0, 0, 0, 147]);
    assert_eq!(unpack([255, 0, 0, 0, 147]), [1023, 0, 1, 2]);
}

#[test]
fn k12_check_of_a_block() {
    let mut block = [0u8; 512];
    block[0] = 1;
    block[4] = 255;
    assert_eq!(check(&block), 1_276);
}
