//! The method of document 01 on frames whose answer is known without it.

mod common;

use common::{developed, frame, frame_of_sides, grey, Generator, Kind, KINDS};
use reference::gradients::gradients;
use reference::green::{choice, D, H, V};
use reference::sites::{colour, reflect, Colour, Frame};

/// The frame with as many reflected rows and columns around it as `margin` says.
fn surrounded(frame: &Frame, margin: i64) -> Frame {
    let (width, height) = (frame.width as i64, frame.height as i64);
    let mut samples = Vec::new();
    for row in -margin..height + margin {
        for column in -margin..width + margin {
            samples.push(frame.sample(row, column) as u16);
        }
    }
    Frame {
        width: (width + 2 * margin) as usize,
        height: (height + 2 * margin) as usize,
        phase: frame.phase,
        samples,
    }
}

/// Reflecting greens, outcomes and differences is the same as reflecting samples alone.
#[test]
fn a_border_of_reflected_samples_changes_nothing() {
    let mut generator = Generator::new(30);
    for turn in 0..240 {
        let inner = frame(&mut generator, KINDS[turn % KINDS.len()], 9);
        let outer = surrounded(&inner, 16);
        let (within, around) = (developed(&inner), developed(&outer));
        for row in 0..inner.height {
            for column in 0..inner.width {
                let site = row * inner.width + column;
                let same = (row + 16) * outer.width + column + 16;
                assert_eq!(within.red[site], around.red[same]);
                assert_eq!(within.green[site], around.green[same]);
                assert_eq!(within.blue[site], around.blue[same]);
                assert_eq!(within.map[site], around.map[same]);
            }
        }
    }
}

/// The code of a red or blue site on a ramp of these steps, where all r_k are equal: h is 32·|along|, v 32·|down|.
fn ramp_code(down: i64, along: i64) -> u8 {
    let (h, v) = (along.abs(), down.abs());
    if h == v {
        1
    } else if 10 * h.max(v) > 17 * h.min(v) {
        2 + u8::from(v < h)
    } else {
        6
    }
}

/// Away from the border, a ramp with a constant for each colour is developed exactly.
#[test]
fn a_ramp_with_a_constant_for_each_colour() {
    let mut generator = Generator::new(31);
    for turn in 0..40 {
        let (down, along) = (generator.between(-6, 6), generator.between(-6, 6));
        let constants = [0; 3].map(|_| generator.between(400, 600));
        let value = |colour: Colour, row: i64, column: i64| {
            constants[colour as usize] + down * (row - 17) + along * (column - 17)
        };
        let phase = turn % 4;
        let sites = (0..36 * 36).map(|site| (site / 36, site % 36));
        let samples = sites.map(|(i, j)| value(colour(phase, i, j), i, j) as u16);
        let found = developed(&Frame {
            width: 36,
            height: 36,
            phase,
            samples: samples.collect(),
        });
        for (row, column) in (14..22).flat_map(|row| (14..22).map(move |column| (row, column))) {
            let site = (row * 36 + column) as usize;
            let numbers = [found.red[site], found.green[site], found.blue[site]];
            let colours = [Colour::Red, Colour::Green, Colour::Blue];
            let expected = colours.map(|colour| value(colour, row, column) as i32);
            assert_eq!(numbers, expected, "({row},{column}) phase {phase}");
            let code = match colour(phase, row, column) {
                Colour::Green => 0,
                _ => ramp_code(down, along),
            };
            assert_eq!(found.map[site], code, "({row},{column}) by {down}, {along}");
        }
    }
}

/// Straight stripes with a gradient across them everywhere give planes equal to the mosaic, and are strong along themselves.
#[test]
fn stripes_are_returned() {
    let mut generator = Generator::new(32);
    let mut compared = 0;
    for turn in 0..600 {
        let (width, height) = (generator.size(3, 12), generator.size(3, 12));
        let values: Vec<u16> = (0..12).map(|_| generator.sample()).collect();
        let of_rows = turn % 2 == 0;
        let stripe = |site: usize| if of_rows { site / width } else { site % width };
        let mut frame = frame_of_sides(&mut generator, Kind::Flat, width, height);
        frame.samples = (0..width * height)
            .map(|site| values[stripe(site)])
            .collect();
        let across = |site: usize| {
            let (row, column) = ((site / width) as i64, (site % width) as i64);
            let [east, west, south, north] = gradients(&frame, row, column);
            if of_rows {
                south + north
            } else {
                east + west
            }
        };
        if (0..width * height).any(|site| across(site) == 0) {
            continue;
        }
        compared += 1;
        let along = if of_rows { 2 } else { 3 };
        assert_eq!(developed(&frame), grey(&frame, along));
    }
    assert!(compared > 400, "{compared}");
}

#[test]
fn flat_frames_are_returned() {
    let mut generator = Generator::new(33);
    for _ in 0..200 {
        let frame = frame(&mut generator, Kind::Flat, 12);
        assert_eq!(developed(&frame), grey(&frame, 1));
    }
}

#[test]
fn gradients_keep_their_bound_and_the_border_is_even() {
    let mut generator = Generator::new(34);
    for turn in 0..600 {
        let frame = frame(&mut generator, KINDS[turn % KINDS.len()], 9);
        let (last_row, last_column) = (frame.height as i64 - 1, frame.width as i64 - 1);
        for row in 0..=last_row {
            for column in 0..=last_column {
                let [east, west, south, north] = gradients(&frame, row, column);
                for gradient in [east, west, south, north] {
                    assert!((0..=40_920).contains(&gradient));
                }
                if column == 0 || column == last_column {
                    assert_eq!(east, west);
                }
                if row == 0 || row == last_row {
                    assert_eq!(south, north);
                }
            }
        }
    }
}

#[test]
fn a_side_of_two_has_no_weak_site() {
    let mut generator = Generator::new(35);
    for turn in 0..200 {
        let long = generator.size(2, 12);
        let (width, height) = if turn % 2 == 0 { (2, long) } else { (long, 2) };
        let frame = frame_of_sides(&mut generator, Kind::Random, width, height);
        // h = 0 where W is 2, v = 0 where H is
        let codes = [0, 1, if width == 2 { 2 } else { 3 }];
        let map = developed(&frame).map;
        assert!(map.iter().all(|code| codes.contains(code)), "{map:?}");
    }
}

#[test]
fn the_choice_of_the_second_pass() {
    let cases = [
        ([1, 2, 3], H),
        ([1, 3, 2], H),
        ([2, 1, 3], V),
        ([3, 1, 2], V),
        ([2, 3, 1], D),
        ([1, 1, 2], D),
        ([1, 2, 1], D),
        ([2, 1, 1], D),
        ([1, 1, 1], D),
        ([2, 2, 1], D),
    ];
    for (sums, chosen) in cases {
        assert_eq!(choice(sums), chosen, "{sums:?}");
    }
}

#[test]
fn positions_are_reflected_without_repeating_the_edge() {
    let reflected = |side| -> Vec<i64> { (-6..=9).map(|k| reflect(k, side)).collect() };
    assert_eq!(
        reflected(2),
        [0, 1, 0, 1, 0, 1, 0, 1, 0, 1, 0, 1, 0, 1, 0, 1]
    );
    assert_eq!(
        reflected(3),
        [2, 1, 0, 1, 2, 1, 0, 1, 2, 1, 0, 1, 2, 1, 0, 1]
    );
    assert_eq!(
        reflected(4),
        [0, 1, 2, 3, 2, 1, 0, 1, 2, 3, 2, 1, 0, 1, 2, 3]
    );
}

#[test]
fn each_phase_read_along_row_0_and_then_row_1() {
    for (phase, names) in ["RGGB", "GRBG", "GBRG", "BGGR"].into_iter().enumerate() {
        for row in -4..6 {
            for column in -4..6 {
                let place = 2 * (row & 1) + (column & 1);
                let expected = match names.as_bytes()[place as usize] {
                    b'R' => Colour::Red,
                    b'G' => Colour::Green,
                    _ => Colour::Blue,
                };
                assert_eq!(colour(phase, row, column), expected);
            }
        }
    }
}
