//! Demand 3 at every black level: lists of mirrorings, transpositions and trades of red and blue; the codes of the map at matching points.

mod common;

use common::black::{bright_enough, frame_and_level, level};
use common::demand3::{compare_changed, list};
use common::{frame, frame_of_sides, try_develop, Generator, Kind, KINDS};
use reference::gradients::gradients;
use reference::green::{first_pass, sums, Outcome, D, H, V};
use reference::sites::{Colour, Frame};
use reference::turning::{
    changed, changed_by_list, matching_code, matching_point, trades_an_odd_number, Change, CHANGES,
};

#[test]
fn lists_of_changes_keep_the_numbers_and_the_map() {
    let mut generator = Generator::new(10);
    for _ in 0..1_500 {
        for kind in KINDS {
            let (first, black) = frame_and_level(&mut generator, kind, 12);
            let changes = list(&mut generator);
            compare_changed(try_develop, &first, black, &changes);
        }
    }
}

#[test]
fn every_change_on_every_small_size_and_phase() {
    let mut generator = Generator::new(11);
    for (width, height) in (2..=7).flat_map(|width| (2..=7).map(move |height| (width, height))) {
        for phase in 0..4 {
            for change in CHANGES {
                let first = frame_of_sides(&mut generator, Kind::FewValued, width, height);
                let black = level(&mut generator);
                let mut first = bright_enough(first, black);
                first.phase = phase;
                compare_changed(try_develop, &first, black, &[change]);
            }
        }
    }
}

#[test]
fn quarter_turns_of_long_narrow_frames() {
    let mut generator = Generator::new(12);
    let turn = [Change::Transpose, Change::MirrorLeftToRight];
    for (width, height) in [(2, 40), (40, 2), (3, 33), (33, 3), (4, 50), (50, 5)] {
        for kind in KINDS {
            let black = level(&mut generator);
            let first = frame_of_sides(&mut generator, kind, width, height);
            let first = bright_enough(first, black);
            compare_changed(try_develop, &first, black, &turn);
            compare_changed(try_develop, &first, black, &turn.repeat(3));
        }
    }
}

/// Frames of these kinds reach ties in both passes, or the comparisons would show nothing.
#[test]
fn the_frames_hold_ties() {
    let mut generator = Generator::new(10);
    let (mut equal, mut weak, mut tied) = (0, 0, 0);
    for turn in 0..2_000 {
        let (frame, _) = frame_and_level(&mut generator, KINDS[turn % KINDS.len()], 12);
        let sites = first_pass(&frame);
        for row in 0..frame.height as i64 {
            for column in 0..frame.width as i64 {
                let Some(site) = sites.at(row, column) else {
                    continue;
                };
                let gradients = gradients(&frame, row, column);
                equal += usize::from(site.outcome == Outcome::Equal && gradients != [0; 4]);
                if site.outcome == Outcome::Weak {
                    weak += 1;
                    let sums = sums(&sites, row, column);
                    let least = sums[H].min(sums[V]).min(sums[D]);
                    let reached = sums.iter().filter(|&&sum| sum == least).count();
                    let estimates_differ = site.estimates[H] != site.estimates[V];
                    tied += usize::from(reached > 1 && estimates_differ);
                }
            }
        }
    }
    assert!(
        equal > 200 && weak > 2_000 && tied > 20,
        "{equal} {weak} {tied}"
    );
}

#[test]
fn colours_and_samples_follow_the_matching_point() {
    let mut generator = Generator::new(13);
    for _ in 0..3_000 {
        let first = frame(&mut generator, Kind::Random, 12);
        let changes = list(&mut generator);
        let last = changed_by_list(&first, &changes);
        for row in 0..first.height {
            for column in 0..first.width {
                let to = matching_point(&first, &changes, (row, column));
                let (row, column) = (row as i64, column as i64);
                let (to_row, to_column) = (to.0 as i64, to.1 as i64);
                let colour = match (first.colour(row, column), trades_an_odd_number(&changes)) {
                    (Colour::Red, true) => Colour::Blue,
                    (Colour::Blue, true) => Colour::Red,
                    (colour, _) => colour,
                };
                assert_eq!(last.colour(to_row, to_column), colour);
                assert_eq!(last.sample(to_row, to_column), first.sample(row, column));
            }
        }
    }
}

#[test]
fn a_transposition_exchanges_the_codes_of_across_and_down() {
    let codes = |changes: &[Change]| [0, 1, 2, 3, 4, 5, 6].map(|code| matching_code(changes, code));
    let kept = [0, 1, 2, 3, 4, 5, 6];
    assert_eq!(codes(&[]), kept);
    for change in CHANGES {
        let exchanged = [0, 1, 3, 2, 5, 4, 6];
        let transposes = change == Change::Transpose;
        assert_eq!(codes(&[change]), if transposes { exchanged } else { kept });
        assert_eq!(
            codes(&[Change::Transpose, change, Change::Transpose]),
            codes(&[change])
        );
    }
}

#[test]
fn each_change_of_a_frame_written_out() {
    let made = |width, height, phase, samples: &[u16]| Frame {
        width,
        height,
        phase,
        samples: samples.to_vec(),
    };
    let first = made(3, 2, 1, &[1, 2, 3, 4, 5, 6]);
    let expected = [
        made(3, 2, 1, &[3, 2, 1, 6, 5, 4]),
        made(3, 2, 3, &[4, 5, 6, 1, 2, 3]),
        made(2, 3, 2, &[1, 4, 2, 5, 3, 6]),
        made(3, 2, 2, &[1, 2, 3, 4, 5, 6]),
    ];
    for (change, last) in CHANGES.into_iter().zip(expected) {
        assert_eq!(changed(&first, change), last, "{change:?}");
    }
    let turn = [Change::Transpose, Change::MirrorLeftToRight];
    assert_eq!(
        changed_by_list(&first, &turn),
        made(2, 3, 3, &[4, 1, 5, 2, 6, 3])
    );
    assert_eq!(matching_point(&first, &turn, (0, 2)), (2, 1));
    assert_eq!(matching_point(&first, &[], (1, 2)), (1, 2));
}
