//! The proved read against the independent one: answers, values, and every entry of the lent samples.

mod both;
#[path = "../../reference/tests/common/mod.rs"]
mod common;

use both::read::{both_read, damage};
use common::{frame_of_sides, set_check, written, Generator, Kind, KINDS};
use reference::calls::Refusal;
use reference::frame_file::{Description, BLOCK};
use reference::sites::Frame;

fn number(answer: Result<Description, Refusal>) -> usize {
    answer.map_or_else(|why| why.number as usize, |_| 0)
}

fn some_frame(generator: &mut Generator, greatest_side: usize) -> Frame {
    let kind = generator.one_of(&KINDS);
    let (width, height) = (
        generator.size(2, greatest_side),
        generator.size(2, greatest_side),
    );
    frame_of_sides(generator, kind, width, height)
}

#[test]
fn good_files_and_every_room() {
    let mut generator = Generator::new(11);
    for _ in 0..400 {
        let frame = some_frame(&mut generator, 24);
        let count = frame.width * frame.height;
        let file = written(&frame);
        for room in [count, count + 1, count + 399, count - 1, 0] {
            let expected = if room >= count { 0 } else { 4 };
            assert_eq!(number(both_read(&file, room)), expected);
        }
    }
}

#[test]
fn sides_to_64_by_48_and_multiples_of_400() {
    let mut generator = Generator::new(12);
    let mut sides: Vec<(usize, usize)> = (0..150)
        .map(|_| (generator.size(2, 64), generator.size(2, 48)))
        .collect();
    sides.extend(compare::SIDES_NEAR_MULTIPLES_OF_400);
    for (width, height) in sides {
        let frame = frame_of_sides(&mut generator, Kind::Random, width, height);
        assert_eq!(number(both_read(&written(&frame), width * height)), 0);
    }
}

#[test]
fn every_byte_of_a_small_file_changed() {
    let mut generator = Generator::new(13);
    let file = written(&frame_of_sides(&mut generator, Kind::Random, 3, 2));
    for place in 0..file.len() {
        for change in [1, 2, 0x80, 0xff] {
            let mut damaged = file.clone();
            damaged[place] ^= change;
            let refusal = both_read(&damaged, 6).expect_err("a changed byte is refused");
            assert_eq!((refusal.number, refusal.place), (7, place / BLOCK));
            set_check(&mut damaged, place / BLOCK);
            let _ = both_read(&damaged, 6);
            let _ = both_read(&damaged, usize::from(change) * 64);
        }
    }
}

#[test]
fn every_length() {
    let mut generator = Generator::new(14);
    let mut file = written(&frame_of_sides(&mut generator, Kind::Random, 21, 20));
    file.extend_from_within(..700);
    for length in 0..file.len() {
        let _ = both_read(&file[..length], 420);
    }
}

#[test]
fn damaged_files_and_several_faults_at_once() {
    let mut generator = Generator::new(15);
    let mut seen = [0; 11];
    for _ in 0..20_000 {
        let frame = some_frame(&mut generator, 30);
        let count = frame.width * frame.height;
        let mut file = written(&frame);
        for _ in 0..generator.size(1, 3) {
            damage(&mut generator, &mut file);
        }
        let room = generator.one_of(&[count, count, count + 5, count - 1, 4096]);
        seen[number(both_read(&file, room))] += 1;
    }
    for refusal in [0, 4, 6, 7, 8, 9, 10] {
        assert!(seen[refusal] >= 20, "{seen:?}");
    }
}
