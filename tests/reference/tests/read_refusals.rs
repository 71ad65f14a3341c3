//! Every refusal of read, and the order of its tests.

mod common;

use common::{frame_of_sides, set_check, written, Generator, Kind};
use reference::calls::returned;
use reference::frame_file::{read, write, BLOCK};

/// Reads with room for so many samples; a refusal must leave them untouched.
fn read_with_room(file: &[u8], room: usize) -> (u32, usize) {
    let before: Vec<u16> = (0..room).map(|place| 0xa000 + place as u16).collect();
    let mut samples = before.clone();
    let answer = returned(&read(file, &mut samples));
    if answer != (0, 0) {
        assert_eq!(samples, before, "refused {answer:?}");
    }
    answer
}

fn read_answer(file: &[u8]) -> (u32, usize) {
    read_with_room(file, 4_000)
}

/// A frame of 900 samples, so blocks 0 to 3 with 300 filler samples in block 3.
fn file_of_four_blocks(generator: &mut Generator) -> Vec<u8> {
    written(&frame_of_sides(generator, Kind::Random, 36, 25))
}

/// The answer after some bytes of one block are set and its check is made to fit.
fn with_bytes(file: &[u8], number: usize, bytes: &[(usize, u8)]) -> (u32, usize) {
    let mut file = file.to_vec();
    for &(place, byte) in bytes {
        file[number * BLOCK + place] = byte;
    }
    set_check(&mut file, number);
    read_answer(&file)
}

#[test]
fn refusal_6_for_lengths() {
    let file = file_of_four_blocks(&mut Generator::new(80));
    assert_eq!(read_answer(&file), (0, 0));
    for length in [0, 1, 511, 513, 1_023, 2_047] {
        assert_eq!(read_answer(&file[..length]), (6, 0), "{length}");
    }
    for length in [512, 1_024, 1_536] {
        assert_eq!(read_answer(&file[..length]), (6, 0), "{length}");
    }
    for more in [1, 511, 512, 1_024] {
        let longer = [&file[..], &vec![0; more]].concat();
        assert_eq!(read_answer(&longer), (6, 0), "{more}");
    }
}

#[test]
fn refusal_7_for_every_byte_changed() {
    let mut generator = Generator::new(81);
    let frame = frame_of_sides(&mut generator, Kind::Random, 21, 20);
    let file = written(&frame);
    assert_eq!(file.len(), 3 * BLOCK);
    let mut samples = vec![0xbeef; 420];
    for place in 0..file.len() {
        for more in 1..=255 {
            let mut changed = file.clone();
            changed[place] = changed[place].wrapping_add(more);
            let answer = returned(&read(&changed, &mut samples));
            assert_eq!(answer, (7, place / BLOCK), "byte {place}");
        }
    }
    assert_eq!(samples, [0xbeef; 420]);
    assert_eq!(returned(&read(&file, &mut samples)), (0, 0));
    assert_eq!(samples, frame.samples);
}

#[test]
fn refusal_8_for_tag_sides_and_phase() {
    let file = file_of_four_blocks(&mut Generator::new(82));
    for place in 4..8 {
        for byte in [0, b'b', b'X', 255] {
            assert_eq!(with_bytes(&file, 0, &[(place, byte)]), (8, 0));
        }
    }
    for side in [0u16, 1, 4_097, 65_535] {
        let [low, high] = side.to_le_bytes();
        assert_eq!(with_bytes(&file, 0, &[(8, low), (9, high)]), (8, 0));
        assert_eq!(with_bytes(&file, 0, &[(10, low), (11, high)]), (8, 0));
    }
    for phase in [4, 5, 128, 255] {
        assert_eq!(with_bytes(&file, 0, &[(12, phase)]), (8, 0));
    }
    for phase in 0..4 {
        assert_eq!(with_bytes(&file, 0, &[(12, phase)]), (0, 0));
    }
    // other allowed sides with another count of blocks
    assert_eq!(with_bytes(&file, 0, &[(8, 0), (9, 16)]), (6, 0));
    assert_eq!(with_bytes(&file, 0, &[(8, 2)]), (6, 0));
}

#[test]
fn refusal_9_for_block_numbers() {
    let file = file_of_four_blocks(&mut Generator::new(83));
    for number in 0..4 {
        for place in 0..4 {
            let wrong = file[number * BLOCK + place] ^ 4;
            assert_eq!(with_bytes(&file, number, &[(place, wrong)]), (9, number));
        }
    }
    let mut exchanged = file.clone();
    exchanged[512..1_024].copy_from_slice(&file[1_024..1_536]);
    exchanged[1_024..1_536].copy_from_slice(&file[512..1_024]);
    assert_eq!(read_answer(&exchanged), (9, 1));
}

#[test]
fn refusal_10_for_filler() {
    let file = file_of_four_blocks(&mut Generator::new(84));
    for place in 13..508 {
        assert_eq!(with_bytes(&file, 0, &[(place, 1)]), (10, 0));
        assert_eq!(with_bytes(&file, 0, &[(place, 128)]), (10, 0));
    }
    for number in 1..4 {
        for place in 504..508 {
            assert_eq!(with_bytes(&file, number, &[(place, 64)]), (10, number));
        }
    }
    // block 3 holds 100 samples in 125 bytes; the others are filler samples
    for place in 129..504 {
        assert_eq!(with_bytes(&file, 3, &[(place, 1)]), (10, 3), "{place}");
        assert_eq!(with_bytes(&file, 3, &[(place, 128)]), (10, 3), "{place}");
    }
    assert_eq!(with_bytes(&file, 3, &[(128, 77)]), (0, 0));
}

#[test]
fn refusal_10_for_low_bits_in_a_shared_byte() {
    // 5 x 5 samples: the last one shares its byte of low bits with three filler samples
    let file = written(&frame_of_sides(&mut Generator::new(85), Kind::Random, 5, 5));
    for low_bits in 0..=255u8 {
        let expected = if low_bits < 4 { (0, 0) } else { (10, 1) };
        assert_eq!(with_bytes(&file, 1, &[(4 + 34, low_bits)]), expected);
    }
}

#[test]
fn refusal_4_for_too_few_samples() {
    let mut file = file_of_four_blocks(&mut Generator::new(86));
    for room in [0, 1, 400, 899] {
        assert_eq!(read_with_room(&file, room), (4, 0));
    }
    assert_eq!(read_with_room(&file, 900), (0, 0));
    file[600] ^= 1;
    assert_eq!(read_with_room(&file, 899), (4, 0));
    assert_eq!(read_with_room(&file, 900), (7, 1));
}

/// Puts the fault of one test, counted in the order of the document, into the file.
fn spoil(file: &mut Vec<u8>, test: usize, generator: &mut Generator) {
    match test {
        0 => file.push(0),
        2 => file[2] = 1,
        3 => file[generator.one_of(&[4, 9, 11, 12])] = 99,
        4 => file[generator.size(13, 507)] = 3,
        5 => file.extend([0; 512]),
        6 => (),
        _ => match ((test - 7) / 3 + 1, (test - 7) % 3) {
            (number, 1) => file[number * BLOCK + 1] = 7,
            (number, _) => file[number * BLOCK + 505] = 8,
        },
    }
}

/// What is told for a fault of one test.
fn told(test: usize) -> (u32, usize) {
    match test {
        0 | 5 => (6, 0),
        1 => (7, 0),
        2 => (9, 0),
        3 => (8, 0),
        4 => (10, 0),
        6 => (4, 0),
        _ => ([7, 9, 10][(test - 7) % 3], (test - 7) / 3 + 1),
    }
}

/// The tests of the check, each with its block.
const CHECKS: [(usize, usize); 4] = [(1, 0), (7, 1), (10, 2), (13, 3)];

/// The file with these faults; the checks fit unless they are among the faults.
fn spoiled(valid: &[u8], faults: &[usize], generator: &mut Generator) -> Vec<u8> {
    let mut file = valid.to_vec();
    // the last fault first, since those of the length add bytes at the end
    for &test in faults.iter().rev() {
        if CHECKS.iter().all(|check| check.0 != test) {
            spoil(&mut file, test, generator);
        }
    }
    for (test, number) in CHECKS {
        set_check(&mut file, number);
        if faults.contains(&test) {
            file[number * BLOCK + 508] ^= 1;
        }
    }
    file
}

#[test]
fn of_several_faults_the_first_test_is_told() {
    let mut generator = Generator::new(87);
    let valid = file_of_four_blocks(&mut generator);
    for _ in 0..6_000 {
        let chance = generator.between(1, 8);
        let mut faults: Vec<usize> = (0..16).collect();
        faults.retain(|_| generator.between(0, chance) == 0);
        let file = spoiled(&valid, &faults, &mut generator);
        let room = if faults.contains(&6) { 899 } else { 900 };
        let expected = faults.first().map_or((0, 0), |&test| told(test));
        assert_eq!(read_with_room(&file, room), expected, "{faults:?}");
    }
}

/// The file that the writer makes from what a file holds, if it holds a frame.
fn rewritten(file: &[u8]) -> Option<Vec<u8>> {
    let side = |at: usize| usize::from(file[at]) + 256 * usize::from(file[at + 1]);
    let (width, height, phase) = (side(8), side(10), usize::from(file[12]));
    let mut samples = Vec::new();
    for block in file[512..].chunks(512) {
        for group in block[4..504].chunks(5) {
            for place in 0..4 {
                let low = group[4] >> (2 * place) & 3;
                samples.push(4 * u16::from(group[place]) + u16::from(low));
            }
        }
    }
    samples.truncate(width * height);
    let mut made = vec![0; file.len()];
    let answer = write(width, height, phase, &samples, &mut made);
    answer.ok().map(|()| made)
}

#[test]
fn a_file_is_accepted_exactly_when_the_writer_makes_it() {
    let mut generator = Generator::new(88);
    let (mut accepted, mut refused) = (0, 0);
    for _ in 0..20_000 {
        let (width, height) = (generator.size(2, 30), generator.size(2, 30));
        let frame = frame_of_sides(&mut generator, Kind::FewValued, width, height);
        let mut file = written(&frame);
        for _ in 0..generator.size(1, 2) {
            let header = generator.between(0, 1) == 0;
            let place = generator.size(0, if header { 16 } else { file.len() - 1 });
            file[place] = generator.one_of(&[0, 1, 2, 3, 4, 20, 66, 128, 255]);
            if generator.between(0, 9) > 0 {
                set_check(&mut file, place / BLOCK);
            }
        }
        let answer = read_answer(&file);
        let made = rewritten(&file) == Some(file);
        assert_eq!(answer == (0, 0), made, "{answer:?}");
        accepted += usize::from(made);
        refused += usize::from(!made);
    }
    assert!(accepted > 2_000 && refused > 2_000, "{accepted} {refused}");
}
