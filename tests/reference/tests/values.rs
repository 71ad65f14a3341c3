//! Demand 3 at every black level: the added constant, the measured sample and the range; the codes of the map.

mod common;

use common::black::{bright_enough, frame_and_level, level, LEVELS};
use common::demand3::{compare_measured, compare_raised, constants, decisions, extremes, raised};
use common::{developed_at, frame, frame_of_sides, try_develop};
use common::{Developed, Generator, Kind, KINDS};
use reference::calls::develop;
use reference::sites::Frame;

/// The frame with its samples pressed together, so that constants have room.
fn pressed(mut frame: Frame, by: u16) -> Frame {
    for sample in &mut frame.samples {
        *sample /= by;
    }
    frame
}

#[test]
fn added_constants_above_and_below_zero() {
    let mut generator = Generator::new(20);
    let (mut above, mut below) = (0, 0);
    for _ in 0..800 {
        for kind in KINDS {
            let by = generator.one_of(&[1, 2, 3, 10, 100]);
            let first = pressed(frame(&mut generator, kind, 12), by);
            let (least, greatest) = constants(&first);
            let start = raised(&first, generator.between(least, greatest));
            let (least, greatest) = constants(&start);
            let constant = generator.between(least, greatest);
            above += usize::from(constant > 0);
            below += usize::from(constant < 0);
            // at level 0 acceptance follows from the range alone
            assert_eq!(compare_raised(try_develop, &start, 0, constant), 0);
        }
    }
    assert!(above > 500 && below > 500, "{above} {below}");
}

/// The constant may leave the range above, and samples too dark for the black level.
#[test]
fn added_constants_at_a_black_level() {
    let mut generator = Generator::new(26);
    let mut returned = [0; 13];
    for _ in 0..400 {
        for kind in KINDS {
            let by = generator.one_of(&[1, 2, 3, 10, 100]);
            let black = level(&mut generator);
            let first = pressed(frame(&mut generator, kind, 12), by);
            let start = bright_enough(first, black);
            let (least, greatest) = constants(&start);
            let any = generator.between(least, greatest);
            let small = generator.between(least.max(-9), 9);
            let near_the_top = greatest + generator.between(0, 9);
            let constant = generator.one_of(&[any, small, near_the_top]);
            let number = compare_raised(try_develop, &start, black, constant);
            returned[number as usize] += 1;
        }
    }
    let seen = [returned[0], returned[5], returned[12]];
    assert!(seen.iter().all(|&count| count > 100), "{seen:?}");
}

#[test]
fn added_constants_to_the_ends_of_the_range() {
    let mut generator = Generator::new(21);
    for _ in 0..300 {
        let first = pressed(frame(&mut generator, Kind::Random, 9), 2);
        let (least, greatest) = constants(&first);
        for constant in [least, greatest, 1] {
            assert_eq!(compare_raised(try_develop, &first, 0, constant), 0);
        }
    }
}

/// With the darkest sample 64 under the black level, a constant of −1 leaves it too dark.
#[test]
fn added_constants_to_the_darkest_sample_allowed() {
    let mut generator = Generator::new(27);
    for black in 65..=255 {
        let kind = generator.one_of(&KINDS);
        let mut first = bright_enough(pressed(frame(&mut generator, kind, 9), 2), black);
        let place = generator.size(0, first.samples.len() - 1);
        first.samples[place] = (black - 64) as u16;
        for (constant, number) in [(0, 0), (1, 0), (-1, 12)] {
            let found = compare_raised(try_develop, &first, black, constant);
            assert_eq!(found, number, "{constant} added to {first:?} at {black}");
        }
    }
}

#[test]
fn the_measured_sample_stands_in_its_own_colour_less_the_black_level() {
    let mut generator = Generator::new(22);
    for _ in 0..1_000 {
        for kind in KINDS {
            let (frame, black) = frame_and_level(&mut generator, kind, 12);
            compare_measured(try_develop, &frame, black);
        }
    }
}

#[test]
fn the_map_has_0_at_green_sites_alone_and_every_code_to_6() {
    let mut generator = Generator::new(25);
    let mut seen = [0; 7];
    for _ in 0..300 {
        for kind in KINDS {
            let (frame, black) = frame_and_level(&mut generator, kind, 12);
            let counts = decisions(try_develop, &frame, black);
            seen = std::array::from_fn(|code| seen[code] + counts[code]);
        }
    }
    assert!(seen.iter().all(|&count| count > 1_000), "{seen:?}");
}

#[test]
fn all_numbers_lie_in_the_range() {
    let mut generator = Generator::new(23);
    let (mut least, mut greatest) = (0, 0);
    for turn in 0..6_000 {
        let mut frame = frame(&mut generator, KINDS[turn % KINDS.len()], 12);
        if turn % 3 == 0 {
            // the ends of the range alone
            for sample in &mut frame.samples {
                *sample = generator.one_of(&[0, 1023]);
            }
        }
        let black = level(&mut generator);
        let frame = bright_enough(frame, black);
        let (lowest, highest) = extremes(try_develop, &frame, black);
        least = least.min(lowest);
        greatest = greatest.max(highest);
    }
    // numbers outside 0..1,023 do occur: the planes are not clamped
    assert!(least < -300 && greatest > 1_323, "{least} {greatest}");
}

#[test]
fn no_answer_depends_on_what_the_buffers_held() {
    let mut generator = Generator::new(24);
    for kind in KINDS {
        let black = generator.one_of(&LEVELS);
        let frame = bright_enough(frame_of_sides(&mut generator, kind, 7, 6), black);
        let expected = developed_at(&frame, black);
        for more in [0, 1, 500] {
            let mut planes = Developed {
                red: generator.numbers(42),
                green: generator.numbers(42),
                blue: generator.numbers(42),
                map: generator.bytes(42),
            };
            let answer = develop(
                7,
                6,
                frame.phase,
                black,
                &frame.samples,
                &mut planes.red,
                &mut planes.green,
                &mut planes.blue,
                &mut planes.map,
                &mut generator.numbers(4 * 42 + more),
            );
            assert_eq!(answer, Ok(()));
            assert_eq!(planes, expected);
        }
    }
}
