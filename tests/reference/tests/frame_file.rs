//! The frame file: packing, the bytes of a file, and the round trip.

mod common;

use common::{frame_of_sides, written, Generator, Kind, KINDS};
use reference::frame_file::{block_count, pack, read, unpack, Description, BLOCK};
use reference::sites::Frame;

/// Reads a file that must be accepted, into `more` samples than are needed.
fn read_back(file: &[u8], count: usize, more: usize) -> Frame {
    let mut samples = vec![0xbeef; count + more];
    let Description {
        width,
        height,
        phase,
    } = read(file, &mut samples).expect("a file of the writer is accepted");
    let rest = samples.split_off(count);
    assert_eq!(rest, vec![0xbeef; more], "samples past W·H stay");
    Frame {
        width,
        height,
        phase,
        samples,
    }
}

/// The sample at a position of a payload, by single bits.
fn sample_by_bits(payload: &[u8], position: usize) -> u16 {
    let group = &payload[5 * (position / 4)..];
    let place = position % 4;
    let mut sample = 0;
    for bit in 0..10 {
        let set = if bit < 2 {
            group[4] >> (2 * place + bit) & 1
        } else {
            group[place] >> (bit - 2) & 1
        };
        sample += u16::from(set) << bit;
    }
    sample
}

#[test]
fn packing_by_single_bits() {
    let mut generator = Generator::new(70);
    for _ in 0..10_000 {
        let samples = [0; 4].map(|_| generator.sample());
        let bytes = pack(samples);
        assert_eq!(
            [0, 1, 2, 3].map(|place| sample_by_bits(&bytes, place)),
            samples
        );
        assert_eq!(unpack(bytes), samples);
        let any = [0; 5].map(|_| generator.between(0, 255) as u8);
        assert_eq!(pack(unpack(any)), any);
    }
}

#[test]
fn the_bytes_of_a_file() {
    let mut generator = Generator::new(71);
    for (width, height) in [(2, 2), (300, 3), (20, 20), (21, 20), (3, 267)] {
        let frame = frame_of_sides(&mut generator, Kind::Random, width, height);
        let file = written(&frame);
        assert_eq!(&file[4..8], b"BAYR");
        assert_eq!(file[8] as usize + 256 * file[9] as usize, width);
        assert_eq!(file[10] as usize + 256 * file[11] as usize, height);
        assert_eq!(file[12] as usize, frame.phase);
        assert!(file[13..508].iter().all(|&byte| byte == 0));
        let mut samples = Vec::new();
        for (number, block) in file.chunks(512).enumerate() {
            assert_eq!(block[..4], [number as u8, (number >> 8) as u8, 0, 0]);
            let sum: usize = (0..508).map(|k| (k + 1) * block[k] as usize).sum();
            assert_eq!(block[508..], (sum as u32).to_le_bytes());
            if number > 0 {
                assert_eq!(block[504..508], [0; 4]);
                samples.extend((0..400).map(|place| sample_by_bits(&block[4..504], place)));
            }
        }
        let filler = samples.split_off(width * height);
        assert_eq!(samples, frame.samples);
        assert!(filler.len() < 400 && filler.iter().all(|&sample| sample == 0));
    }
}

#[test]
fn counts_of_blocks() {
    let sides = [
        (2, 2),
        (20, 20),
        (2, 200),
        (19, 21),
        (401, 2),
        (40, 20),
        (3, 267),
    ];
    let counts = sides.map(|(width, height)| block_count(width, height));
    assert_eq!(counts, [2, 2, 2, 2, 4, 3, 4]);
    assert_eq!(block_count(4_096, 4_096), 1 + 41_944);
}

/// A block's first bytes, then zeros, then its check.
fn block_of(front: &[u8], check: [u8; 4]) -> Vec<u8> {
    let mut block = front.to_vec();
    block.resize(BLOCK - check.len(), 0);
    block.extend(check);
    block
}

/// The stored bytes that the case table has (crates/cases, FileCases).
#[test]
fn the_bytes_of_the_case_table() {
    let file = |width, height, phase, samples| {
        written(&Frame {
            width,
            height,
            phase,
            samples,
        })
    };
    let tag = b"\0\0\0\0BAYR";
    let wide = file(1_027, 522, 3, vec![0; 1_027 * 522]);
    let header = block_of(&[&tag[..], &[3, 4, 10, 2, 3]].concat(), [191, 8, 0, 0]);
    assert_eq!(wide[..BLOCK], header);
    let tall = file(2, 202, 0, [vec![0; 400], vec![1_023, 0, 1, 2]].concat());
    let second = block_of(&[2, 0, 0, 0, 255, 0, 0, 0, 147], [40, 10, 0, 0]);
    assert_eq!(tall[2 * BLOCK..], second);
    let header = block_of(&[&tag[..], &[2, 0, 2, 0, 0]].concat(), [247, 7, 0, 0]);
    let samples = block_of(&[1, 0, 0, 0, 25, 10, 15, 50, 16], [67, 3, 0, 0]);
    let glaze = file(2, 2, 0, vec![100, 40, 61, 200]);
    assert_eq!(glaze, [header, samples].concat());
    assert_eq!([399, 400, 401].map(|side| block_count(side, 1)), [2, 2, 3]);
}

#[test]
fn round_trips_of_small_frames() {
    let mut generator = Generator::new(72);
    for turn in 0..1_000 {
        let (width, height) = (generator.size(2, 40), generator.size(2, 40));
        let frame = frame_of_sides(&mut generator, KINDS[turn % KINDS.len()], width, height);
        let more = generator.size(0, 3);
        assert_eq!(read_back(&written(&frame), width * height, more), frame);
    }
}

#[test]
fn round_trips_around_multiples_of_400() {
    let mut generator = Generator::new(73);
    for samples in (396..=404)
        .chain(796..=804)
        .chain(1_196..=1_204)
        .chain([4_000, 4_002])
    {
        let mut sizes = 0;
        for width in (2..=samples / 2).filter(|width| samples % width == 0) {
            sizes += 1;
            let frame = frame_of_sides(&mut generator, Kind::Random, width, samples / width);
            let file = written(&frame);
            assert_eq!(file.len(), (1 + samples.div_ceil(400)) * BLOCK);
            assert_eq!(read_back(&file, samples, 0), frame);
            assert_eq!(read_back(&file, samples, 5), frame);
        }
        let prime = [397, 401, 797, 1_201].contains(&samples);
        assert_eq!(sizes == 0, prime, "{samples}");
    }
}

#[test]
fn round_trips_of_the_greatest_sides() {
    let mut generator = Generator::new(74);
    for (width, height) in [(4_096, 2), (2, 4_096), (4_096, 300)] {
        let frame = frame_of_sides(&mut generator, Kind::Random, width, height);
        let file = written(&frame);
        assert_eq!(read_back(&file, width * height, 1), frame);
    }
}
