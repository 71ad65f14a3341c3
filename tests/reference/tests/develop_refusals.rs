//! Every refusal of develop and clamp, with all that was lent compared afterwards.

mod common;

use common::black::{held_up, level, LEVELS, TOO_HIGH};
use common::lent::{place_of, Lent, ORDER};
use common::{developed_at, frame_of_sides, must_refuse, with, Call, Generator, Kind};
use reference::calls::{clamp, develop, refused, returned};

impl Call for Lent {
    fn call(&mut self) -> (u32, usize) {
        returned(&develop(
            self.width,
            self.height,
            self.phase,
            self.black,
            &self.mosaic,
            &mut self.red,
            &mut self.green,
            &mut self.blue,
            &mut self.map,
            &mut self.work,
        ))
    }
}

#[test]
fn valid_calls_are_accepted() {
    let mut generator = Generator::new(50);
    for _ in 0..100 {
        assert_eq!(Lent::small(&mut generator).call(), (0, 0));
    }
}

#[test]
fn refusal_1_for_a_side_not_allowed() {
    let valid = Lent::small(&mut Generator::new(51));
    for side in [0, 1, 4_097, 8_192, 65_538, usize::MAX / 2 + 1, usize::MAX] {
        must_refuse(with(&valid, |lent| lent.width = side), 1, 0);
        must_refuse(with(&valid, |lent| lent.height = side), 1, 0);
        let both = with(&valid, |lent| (lent.width, lent.height) = (side, side));
        must_refuse(both, 1, 0);
    }
}

#[test]
fn the_greatest_sides_are_accepted() {
    let mut generator = Generator::new(52);
    for (width, height) in [(4_096, 2), (2, 4_096), (2, 2)] {
        let frame = frame_of_sides(&mut generator, Kind::FewValued, width, height);
        for black in [0, 64, 255] {
            let planes = developed_at(&held_up(frame.clone(), 191), black);
            assert_eq!(planes.red.len(), width * height);
        }
    }
}

#[test]
fn refusal_2_for_a_phase_above_3() {
    let valid = Lent::small(&mut Generator::new(53));
    for phase in [4, 5, 256, usize::MAX] {
        must_refuse(with(&valid, |lent| lent.phase = phase), 2, 0);
    }
}

#[test]
fn refusal_11_for_a_black_level_above_255() {
    let mut generator = Generator::new(64);
    for _ in 0..20 {
        let valid = Lent::small(&mut generator);
        for black in TOO_HIGH {
            must_refuse(with(&valid, |lent| lent.black = black), 11, 0);
        }
        let bright = with(&valid, |lent| lent.mosaic.fill(191));
        for black in LEVELS {
            assert_eq!(with(&bright, |lent| lent.black = black).call(), (0, 0));
        }
    }
}

#[test]
fn refusal_3_for_the_length_of_the_mosaic() {
    let mut generator = Generator::new(54);
    for _ in 0..20 {
        let valid = Lent::small(&mut generator);
        let count = valid.mosaic.len();
        for length in [0, 1, count - 1, count + 1, 2 * count] {
            must_refuse(with(&valid, |lent| lent.mosaic.resize(length, 7)), 3, 0);
        }
    }
}

#[test]
fn refusal_4_for_the_length_of_another_buffer() {
    let mut generator = Generator::new(55);
    for _ in 0..20 {
        let valid = Lent::small(&mut generator);
        let count = valid.mosaic.len();
        for length in [0, count - 1, count + 1, 4 * count] {
            must_refuse(with(&valid, |lent| lent.red.resize(length, 7)), 4, 0);
            must_refuse(with(&valid, |lent| lent.green.resize(length, 7)), 4, 0);
            must_refuse(with(&valid, |lent| lent.blue.resize(length, 7)), 4, 0);
            must_refuse(with(&valid, |lent| lent.map.resize(length, 7)), 4, 0);
        }
        for length in [0, count, 4 * count - 1] {
            must_refuse(with(&valid, |lent| lent.work.resize(length, 7)), 4, 0);
        }
    }
}

/// The map's length is tested after the black level and the mosaic's length and before the samples.
#[test]
fn the_place_of_the_map_among_the_tests() {
    let mut generator = Generator::new(59);
    for _ in 0..60 {
        let mut lent = Lent::small(&mut generator);
        let count = lent.mosaic.len();
        let length = generator.one_of(&[0, 1, count - 1, count + 1, 4 * count]);
        lent.map.resize(length, 7);
        for (number, told) in [(12, 4), (5, 4), (3, 3), (11, 11), (2, 2), (1, 1)] {
            lent.spoil(number, &mut generator);
            must_refuse(lent.clone(), told, 0);
        }
    }
}

#[test]
fn refusal_5_for_the_first_sample_above_1023() {
    let mut generator = Generator::new(56);
    for _ in 0..100 {
        let valid = Lent::small(&mut generator);
        let last = valid.mosaic.len() - 1;
        let sample = generator.one_of(&[1_024, 1_025, 4_095, 65_535]);
        let place = generator.size(0, last);
        let later = generator.size(place, last);
        for at in [0, place, last] {
            must_refuse(with(&valid, |lent| lent.mosaic[at] = sample), 5, at);
        }
        let twice = with(&valid, |lent| {
            lent.mosaic[later] = 65_535;
            lent.mosaic[place] = sample;
        });
        must_refuse(twice, 5, place);
        assert_eq!(
            with(&valid, |lent| lent.mosaic[place] = 1_023).call(),
            (0, 0)
        );
    }
}

/// A sample may lie 64 under the black level and not 65.
#[test]
fn refusal_12_for_the_first_sample_more_than_64_under_the_black_level() {
    let mut generator = Generator::new(65);
    for black in 0..=255 {
        let valid = with(&Lent::small(&mut generator), |lent| {
            lent.black = black;
            lent.mosaic
                .iter_mut()
                .for_each(|z| *z = (*z).max(black as u16));
        });
        let last = valid.mosaic.len() - 1;
        let place = generator.size(0, last);
        let later = generator.size(place, last);
        for at in [0, place, last] {
            let darkest = with(&valid, |lent| {
                lent.mosaic[at] = black.saturating_sub(64) as u16;
            });
            assert_eq!(darkest.clone().call(), (0, 0), "{darkest:?}");
            if let Some(sample) = black.checked_sub(65) {
                must_refuse(with(&valid, |l| l.mosaic[at] = sample as u16), 12, at);
                must_refuse(with(&valid, |l| l.mosaic[at] = 0), 12, at);
            }
        }
        if black > 64 {
            let twice = with(&valid, |lent| {
                lent.mosaic[later] = 0;
                lent.mosaic[place] = (black - 65) as u16;
            });
            must_refuse(twice, 12, place);
        }
    }
}

/// Every sample is tested for 5 before the first is refused by 12.
#[test]
fn a_sample_too_high_is_told_before_one_too_dark_wherever_both_stand() {
    let mut generator = Generator::new(66);
    for _ in 0..200 {
        let mut lent = Lent::small(&mut generator);
        let last = lent.mosaic.len() - 1;
        lent.spoil(12, &mut generator);
        let dark = generator.size(0, last);
        lent.mosaic[dark] = 0;
        let high = generator.size(0, last);
        let both = with(&lent, |lent| lent.mosaic[high] = 1_024);
        must_refuse(both, 5, high);
        must_refuse(lent, 12, 0);
    }
}

/// Develop's order: 1, 2, 11, 3, 4, 5, 12.
#[test]
fn of_two_faults_the_one_that_is_tested_first_is_told() {
    let mut generator = Generator::new(67);
    for pair in ORDER.windows(2) {
        for _ in 0..60 {
            let mut lent = Lent::small(&mut generator);
            lent.spoil(pair[1], &mut generator);
            must_refuse(lent.clone(), pair[1], place_of(pair[1]));
            lent.spoil(pair[0], &mut generator);
            must_refuse(lent, pair[0], place_of(pair[0]));
        }
    }
}

#[test]
fn of_several_faults_the_one_that_is_tested_first_is_told() {
    let mut generator = Generator::new(57);
    for faults in (1..128).cycle().take(127 * 10) {
        let mut lent = Lent::small(&mut generator);
        let bits = (0..).zip(ORDER);
        let numbers: Vec<u32> = bits
            .filter(|(bit, _)| faults >> bit & 1 == 1)
            .map(|(_, number)| number)
            .collect();
        for &number in numbers.iter().rev() {
            lent.spoil(number, &mut generator);
        }
        must_refuse(lent, numbers[0], place_of(numbers[0]));
    }
}

/// Any black level has an answer: that of 255 and below by its samples, 11 for all others.
#[test]
fn any_black_level_has_an_answer() {
    let mut generator = Generator::new(68);
    for _ in 0..300 {
        let mut lent = Lent::small(&mut generator);
        let any = generator.between(0, i64::MAX - 1) as usize;
        let admitted = level(&mut generator);
        lent.black = generator.one_of(&[any, any % 512, any % 65_792, any << 8, admitted]);
        let black = lent.black;
        let dark = lent
            .mosaic
            .iter()
            .position(|&z| black > 64 + usize::from(z));
        match dark {
            _ if black > 255 => must_refuse(lent, 11, 0),
            Some(place) => must_refuse(lent, 12, place),
            None => assert_eq!(lent.call(), (0, 0)),
        }
    }
}

#[test]
fn clamp_holds_each_value_to_the_range() {
    let plane = [
        i32::MIN,
        -2_046,
        -1,
        0,
        1,
        511,
        1_022,
        1_023,
        1_024,
        3_069,
        i32::MAX,
    ];
    let mut out = [-5; 11];
    assert_eq!(clamp(&plane, &mut out), Ok(()));
    assert_eq!(out, [0, 0, 0, 0, 1, 511, 1_022, 1_023, 1_023, 1_023, 1_023]);
    assert_eq!(clamp(&[], &mut []), Ok(()));
}

#[test]
fn clamp_refuses_lengths_that_differ() {
    let mut generator = Generator::new(58);
    for (length, out_length) in [(0, 1), (1, 0), (5, 4), (4, 5), (100, 3)] {
        let plane = generator.numbers(length);
        let mut out = generator.numbers(out_length);
        let before = out.clone();
        assert_eq!(clamp(&plane, &mut out), refused(4, 0));
        assert_eq!(out, before);
    }
}
