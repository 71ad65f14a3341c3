//! The proved develop against the independent one: every refusal, several faults at once, and every buffer left as it was.

mod both;
#[path = "../../reference/tests/common/mod.rs"]
mod common;

use both::{both_develop, disturb};
use common::black::{bright_enough, held_up, level, LEVELS, TOO_HIGH};
use common::lent::{place_of, Lent, ORDER};
use common::{frame, with, Generator, KINDS};
use reference::calls::{refused, returned};

/// The faults of the numbers whose bit is set, in the order of the tests; the first of them is told.
#[test]
fn every_set_of_faults_at_once() {
    let seed = 84;
    let mut generator = Generator::new(seed);
    for faults in (1_u32..128).cycle().take(127 * 20) {
        let mut lent = Lent::small(&mut generator);
        for bit in (0..ORDER.len()).rev().filter(|bit| faults >> bit & 1 == 1) {
            lent.spoil(ORDER[bit], &mut generator);
        }
        let first = ORDER[faults.trailing_zeros() as usize];
        let answer = both_develop(&format!("seed {seed}, faults {faults:07b}"), &lent);
        assert_eq!(answer, refused(first, place_of(first)));
    }
}

#[test]
fn faults_at_random() {
    let seed = 85;
    let mut generator = Generator::new(seed);
    let mut seen = [0; 13];
    for turn in 0..4_000 {
        let kind = generator.one_of(&KINDS);
        let black = level(&mut generator);
        let frame = bright_enough(frame(&mut generator, kind, 12), black);
        let mut lent = Lent::new(&mut generator, &frame, black, 0);
        disturb(&mut generator, &mut lent);
        let answer = both_develop(&format!("seed {seed}, turn {turn}"), &lent);
        seen[returned(&answer).0 as usize] += 1;
    }
    let often = |number: u32| seen[number as usize] >= 100;
    assert!(
        often(0) && ORDER.into_iter().all(often),
        "seed {seed}: {seen:?}"
    );
}

/// Frames as they come: the black level alone decides between 0, 11 and 12.
#[test]
fn black_levels_at_random() {
    let seed = 77;
    let mut generator = Generator::new(seed);
    let mut seen = [0; 13];
    for turn in 0..2_000 {
        let kind = generator.one_of(&KINDS);
        let frame = frame(&mut generator, kind, 24);
        let any = generator.between(0, i64::MAX - 1) as usize;
        let admitted = level(&mut generator);
        let too_high = generator.one_of(&TOO_HIGH);
        let black = generator.one_of(&[admitted, admitted, too_high, any, any % 512]);
        let lent = Lent::new(&mut generator, &frame, black, 0);
        let answer = both_develop(&format!("seed {seed}, turn {turn}, {kind:?}"), &lent);
        seen[returned(&answer).0 as usize] += 1;
    }
    let often = |number: usize| seen[number] >= 200;
    assert!(often(0) && often(11) && often(12), "seed {seed}: {seen:?}");
}

/// The levels at the ends, for frames that 11 and 12 do not concern and for some that they do.
#[test]
fn each_black_level_at_the_ends() {
    let seed = 78;
    let mut generator = Generator::new(seed);
    for kind in KINDS {
        let bright = held_up(frame(&mut generator, kind, 12), 191);
        for (black, number) in [(255, 0), (256, 11), (usize::MAX, 11)] {
            let lent = Lent::new(&mut generator, &bright, black, 0);
            let answer = both_develop(&format!("seed {seed}, {kind:?}"), &lent);
            assert_eq!(returned(&answer), (number, 0));
        }
        for black in LEVELS {
            let lent = Lent::new(&mut generator, &bright, black, 0);
            let dark = with(&lent, |lent| lent.mosaic.fill(0));
            let answer = both_develop(&format!("seed {seed}, {kind:?}"), &dark);
            assert_eq!(answer.is_ok(), black <= 64, "{black}");
        }
    }
}

/// 65 under the black level at every place, which 12 tells, and 64 under it there; then a sample too high behind it, which 5 tells.
#[test]
fn a_sample_too_dark_at_every_place() {
    let seed = 79;
    let mut generator = Generator::new(seed);
    for black in [65, 66, 128, 254, 255] {
        let mut small = Lent::small(&mut generator);
        small.black = black;
        small
            .mosaic
            .iter_mut()
            .for_each(|z| *z = (*z).max(black as u16));
        let last = small.mosaic.len() - 1;
        for place in 0..=last {
            let at = format!("seed {seed}, {black} at {place}");
            let darkest = with(&small, |lent| lent.mosaic[place] = (black - 64) as u16);
            assert_eq!(both_develop(&at, &darkest), Ok(()));
            let dark = with(&small, |lent| lent.mosaic[place] = (black - 65) as u16);
            assert_eq!(both_develop(&at, &dark), refused(12, place));
            let twice = with(&dark, |lent| lent.mosaic[place..].fill(0));
            assert_eq!(both_develop(&at, &twice), refused(12, place));
            for high in place + 1..=last {
                let both = with(&dark, |lent| lent.mosaic[high] = 1_024);
                assert_eq!(both_develop(&at, &both), refused(5, high));
            }
        }
    }
}

#[test]
fn a_length_one_off() {
    let seed = 86;
    let mut generator = Generator::new(seed);
    let at = format!("seed {seed}");
    for _ in 0..60 {
        let small = Lent::small(&mut generator);
        let count = small.mosaic.len();
        for length in [0, 1, count - 1, count + 1, 4 * count] {
            let mosaic = with(&small, |lent| lent.mosaic.resize(length, 7));
            assert_eq!(both_develop(&at, &mosaic), refused(3, 0));
            let red = with(&small, |lent| lent.red.resize(length, 7));
            assert_eq!(both_develop(&at, &red), refused(4, 0));
            let green = with(&small, |lent| lent.green.resize(length, 7));
            assert_eq!(both_develop(&at, &green), refused(4, 0));
            let blue = with(&small, |lent| lent.blue.resize(length, 7));
            assert_eq!(both_develop(&at, &blue), refused(4, 0));
        }
        for length in [0, count, 4 * count - 1] {
            let work = with(&small, |lent| lent.work.resize(length, 7));
            assert_eq!(both_develop(&at, &work), refused(4, 0));
        }
        for length in [4 * count, 4 * count + 1, 9 * count] {
            let work = with(&small, |lent| lent.work.resize(length, 7));
            assert_eq!(both_develop(&at, &work), Ok(()));
        }
    }
}

/// Every other length of the map, with a sample too high besides, which is tested later.
#[test]
fn every_wrong_length_of_the_map() {
    let seed = 89;
    let mut generator = Generator::new(seed);
    for _ in 0..8 {
        let mut lent = Lent::small(&mut generator);
        let count = lent.mosaic.len();
        lent.mosaic[count - 1] = 1_024;
        for length in 0..=4 * count + 1 {
            let expected = if length == count {
                refused(5, count - 1)
            } else {
                refused(4, 0)
            };
            let map = with(&lent, |lent| lent.map.resize(length, 7));
            let at = format!("seed {seed}, map of {length}");
            assert_eq!(both_develop(&at, &map), expected);
        }
    }
}

/// W·H that is the mosaic's length only where the product is cut to 64 bits.
#[test]
fn sides_whose_product_is_cut() {
    let seed = 87;
    let small = Lent::small(&mut Generator::new(seed));
    let half = usize::MAX / 2 + 1;
    let at = format!("seed {seed}");
    for (width, height) in [
        (half, 2),
        (2, half),
        (1 << 32, 1 << 32),
        (usize::MAX, usize::MAX),
    ] {
        for length in [0, 1, 4] {
            let cut = with(&small, |lent| {
                (lent.width, lent.height) = (width, height);
                lent.mosaic.resize(length, 7);
                lent.red.clear();
            });
            assert_eq!(both_develop(&at, &cut), refused(1, 0));
        }
    }
}

#[test]
fn a_sample_too_high_at_every_place() {
    let seed = 88;
    let mut generator = Generator::new(seed);
    for sample in [1_024, 1_025, 2_047, 32_768, u16::MAX] {
        let small = Lent::small(&mut generator);
        for place in 0..small.mosaic.len() {
            let high = with(&small, |lent| lent.mosaic[place] = sample);
            let answer = both_develop(&format!("seed {seed}, {sample} at {place}"), &high);
            assert_eq!(answer, refused(5, place));
            let twice = with(&high, |lent| *lent.mosaic.last_mut().unwrap() = u16::MAX);
            assert_eq!(
                both_develop(&format!("seed {seed}"), &twice),
                refused(5, place)
            );
        }
    }
}
