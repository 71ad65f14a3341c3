//! Demand 3 through the proved library at every kind of black level: whole lists of changes, the added constant, the measured sample and
//! the range; and what document 02 says of the decision map, A1, and of the black level, A2.

mod both;
#[path = "../../reference/tests/common/mod.rs"]
mod common;

use both::library_try_develop;
use common::black::{bright_enough, frame_and_level, held_up, level};
use common::demand3::{
    compare_changed, compare_levels, compare_measured, compare_raised, compare_taken_off,
    constants, decisions, extremes, list,
};
use common::{frame, Generator, KINDS};

#[test]
fn lists_of_changes_keep_the_numbers_and_the_map() {
    let mut generator = Generator::new(91);
    for _ in 0..1_000 {
        for kind in KINDS {
            let (first, black) = frame_and_level(&mut generator, kind, 40);
            let changes = list(&mut generator);
            compare_changed(library_try_develop, &first, black, &changes);
        }
    }
}

/// At level 0 a constant that keeps the range is enough. At others the raised frame is refused where 12 finds a sample in it.
#[test]
fn an_added_constant_is_added_to_all_numbers_and_keeps_the_map() {
    let mut generator = Generator::new(92);
    let mut returned = [0; 13];
    for _ in 0..500 {
        for kind in KINDS {
            let mut frame = frame(&mut generator, kind, 40);
            let by = generator.one_of(&[1, 2, 10]);
            frame.samples.iter_mut().for_each(|sample| *sample /= by);
            let (least, greatest) = constants(&frame);
            let constant = generator.between(least, greatest);
            let number = compare_raised(library_try_develop, &frame, 0, constant);
            assert_eq!(number, 0);
            let black = level(&mut generator);
            let frame = bright_enough(frame, black);
            let (least, greatest) = constants(&frame);
            let any = generator.between(least, greatest);
            let small = generator.between(least.max(-9), 9);
            let near_the_top = greatest + generator.between(0, 9);
            let constant = generator.one_of(&[any, small, near_the_top]);
            let number = compare_raised(library_try_develop, &frame, black, constant);
            returned[number as usize] += 1;
        }
    }
    let seen = [0, 5, 12].map(|number| returned[number]);
    assert!(seen.iter().all(|&count| count > 100), "{seen:?}");
}

#[test]
fn the_planes_are_those_of_samples_with_the_level_taken_off_beforehand() {
    let mut generator = Generator::new(98);
    for _ in 0..500 {
        for kind in KINDS {
            let black = level(&mut generator);
            let frame = held_up(frame(&mut generator, kind, 40), black);
            compare_taken_off(library_try_develop, &frame, black);
        }
    }
}

#[test]
fn the_map_is_the_same_at_every_level_and_the_numbers_are_those_less_it() {
    let mut generator = Generator::new(99);
    for _ in 0..8 {
        for kind in KINDS {
            let frame = frame(&mut generator, kind, 24);
            assert!(compare_levels(library_try_develop, &frame) > 64);
        }
    }
}

#[test]
fn the_map_has_0_at_green_sites_alone_and_every_code_to_6() {
    let mut generator = Generator::new(97);
    let mut seen = [0; 7];
    for _ in 0..100 {
        for kind in KINDS {
            let (frame, black) = frame_and_level(&mut generator, kind, 40);
            let counts = decisions(library_try_develop, &frame, black);
            seen = std::array::from_fn(|code| seen[code] + counts[code]);
        }
    }
    assert!(seen.iter().all(|&count| count > 1_000), "{seen:?}");
}

#[test]
fn measured_samples_stand_less_the_level_and_all_numbers_lie_in_the_range() {
    let mut generator = Generator::new(93);
    let (mut least, mut greatest) = (0, 0);
    for _ in 0..500 {
        for kind in KINDS {
            let (frame, black) = frame_and_level(&mut generator, kind, 40);
            compare_measured(library_try_develop, &frame, black);
            let (lowest, highest) = extremes(library_try_develop, &frame, black);
            least = least.min(lowest);
            greatest = greatest.max(highest);
        }
    }
    // numbers outside 0..1,023 do occur: the planes are not clamped
    assert!(least < -300 && greatest > 1_323, "{least} {greatest}");
}
