//! Every refusal of write, with all that was lent compared afterwards.

mod common;

use common::{frame_of_sides, must_refuse, with, Call, Generator, Kind};
use reference::calls::returned;
use reference::frame_file::{block_count, write, BLOCK};

/// All that is lent to one call of write.
#[derive(Clone, Debug, PartialEq)]
struct Lent {
    width: usize,
    height: usize,
    phase: usize,
    mosaic: Vec<u16>,
    file: Vec<u8>,
}

impl Call for Lent {
    fn call(&mut self) -> (u32, usize) {
        returned(&write(
            self.width,
            self.height,
            self.phase,
            &self.mosaic,
            &mut self.file,
        ))
    }
}

/// A call that is accepted.
fn lent(generator: &mut Generator) -> Lent {
    let (width, height) = (generator.size(2, 30), generator.size(2, 30));
    let frame = frame_of_sides(generator, Kind::Random, width, height);
    let length = block_count(width, height) * BLOCK;
    Lent {
        width,
        height,
        phase: frame.phase,
        mosaic: frame.samples,
        file: (0..length)
            .map(|_| generator.between(0, 255) as u8)
            .collect(),
    }
}

#[test]
fn refusals_1_and_2_for_sides_and_phase() {
    let valid = lent(&mut Generator::new(60));
    for side in [0, 1, 4_097, 65_538, usize::MAX] {
        must_refuse(with(&valid, |lent| lent.width = side), 1, 0);
        must_refuse(with(&valid, |lent| lent.height = side), 1, 0);
    }
    for phase in [4, 256, usize::MAX] {
        must_refuse(with(&valid, |lent| lent.phase = phase), 2, 0);
    }
    assert_eq!(valid.clone().call(), (0, 0));
}

#[test]
fn refusals_3_and_4_for_lengths() {
    let mut generator = Generator::new(61);
    for _ in 0..50 {
        let valid = lent(&mut generator);
        let count = valid.mosaic.len();
        for length in [0, count - 1, count + 1, count + 400] {
            must_refuse(with(&valid, |lent| lent.mosaic.resize(length, 5)), 3, 0);
        }
        let bytes = valid.file.len();
        for length in [0, bytes - 1, bytes + 1, bytes - 512, bytes + 512] {
            must_refuse(with(&valid, |lent| lent.file.resize(length, 5)), 4, 0);
        }
    }
}

#[test]
fn refusal_5_for_the_first_sample_above_1023() {
    let mut generator = Generator::new(62);
    for _ in 0..100 {
        let valid = lent(&mut generator);
        let last = valid.mosaic.len() - 1;
        let place = generator.size(0, last);
        for at in [0, place, last] {
            must_refuse(with(&valid, |lent| lent.mosaic[at] = 1_024), 5, at);
        }
        must_refuse(
            with(&valid, |lent| lent.mosaic[place..].fill(65_535)),
            5,
            place,
        );
    }
}

#[test]
fn of_several_faults_the_lowest_number_is_told() {
    let mut generator = Generator::new(63);
    for faults in (1..32).cycle().take(31 * 10) {
        let mut lent = lent(&mut generator);
        let has = |number: u32| faults >> (number - 1) & 1 == 1;
        if has(5) {
            lent.mosaic[0] = 1_500;
        }
        if has(4) {
            lent.file.push(9);
        }
        if has(3) {
            lent.mosaic.pop();
        }
        if has(2) {
            lent.phase = generator.one_of(&[4, 77, usize::MAX]);
        }
        if has(1) {
            lent.height = generator.one_of(&[0, 1, 4_097, usize::MAX]);
        }
        let lowest = (1..=5).find(|&number| has(number)).unwrap();
        must_refuse(lent, lowest, 0);
    }
}
