//! Document 01, "The frame file": packing, blocks, read and write.

use crate::calls::{
    refused, test_length, test_samples, test_shape, Refusal, GREATEST_PHASE, SIDES,
};

/// Bytes of a block.
pub const BLOCK: usize = 512;
/// Samples of a block after block 0.
pub const BLOCK_SAMPLES: usize = 400;
/// Bytes 0 up to this one are summed for the check, which follows them.
const CHECKED: usize = 508;
const TAG: &[u8; 4] = b"BAYR";
const HEADER_FILLER: usize = 13;
const PAYLOAD: usize = 4;
const PAYLOAD_END: usize = 504;

/// What read adds to its answer.
#[derive(Clone, Copy, Debug, PartialEq, Eq)]
pub struct Description {
    pub width: usize,
    pub height: usize,
    pub phase: usize,
}

/// Four bytes of high eight bits, then one with the low two bits, first sample lowest.
pub fn pack(samples: [u16; 4]) -> [u8; 5] {
    let mut bytes = [0u8; 5];
    for (place, &sample) in samples.iter().enumerate() {
        bytes[place] = (sample >> 2) as u8;
        bytes[4] |= ((sample & 3) as u8) << (2 * place);
    }
    bytes
}

/// The four samples of five bytes.
pub fn unpack(bytes: [u8; 5]) -> [u16; 4] {
    let mut samples = [0u16; 4];
    for (place, sample) in samples.iter_mut().enumerate() {
        let low = (bytes[4] >> (2 * place)) & 3;
        *sample = u16::from(bytes[place]) * 4 + u16::from(low);
    }
    samples
}

/// The sum of (k+1) times byte k for k = 0..507.
pub fn check(block: &[u8]) -> u32 {
    let weighted = |(k, &byte): (usize, &u8)| (k as u32 + 1) * u32::from(byte);
    block[..CHECKED].iter().enumerate().map(weighted).sum()
}

/// 1 more than W·H/400 rounded up.
pub fn block_count(width: usize, height: usize) -> usize {
    1 + (width * height).div_ceil(BLOCK_SAMPLES)
}

/// The payload of a later block of the file.
pub fn payload(file: &[u8], number: usize) -> &[u8] {
    &file[number * BLOCK + PAYLOAD..number * BLOCK + PAYLOAD_END]
}

fn little_endian(bytes: &[u8]) -> u32 {
    bytes
        .iter()
        .rev()
        .fold(0, |value, &byte| value * 256 + u32::from(byte))
}

/// Refusals 7 and 9 of one block.
fn test_block(block: &[u8], number: usize) -> Result<(), Refusal> {
    if little_endian(&block[CHECKED..BLOCK]) != check(block) {
        return refused(7, number);
    }
    if little_endian(&block[0..4]) as usize != number {
        return refused(9, number);
    }
    Ok(())
}

/// Block 0: refusals 7, 9, 8, 10.
fn read_header(block: &[u8]) -> Result<Description, Refusal> {
    test_block(block, 0)?;
    let width = little_endian(&block[8..10]) as usize;
    let height = little_endian(&block[10..12]) as usize;
    let phase = usize::from(block[12]);
    let sides_allowed = SIDES.contains(&width) && SIDES.contains(&height);
    if &block[4..8] != TAG || !sides_allowed || phase > GREATEST_PHASE {
        return refused(8, 0);
    }
    if block[HEADER_FILLER..CHECKED].iter().any(|&byte| byte != 0) {
        return refused(10, 0);
    }
    Ok(Description {
        width,
        height,
        phase,
    })
}

/// The samples of one later block of the file, of which the first `wanted` count.
/// Refusals 7, 9, 10.
fn read_samples(file: &[u8], number: usize, wanted: usize) -> Result<Vec<u16>, Refusal> {
    let block = &file[number * BLOCK..(number + 1) * BLOCK];
    test_block(block, number)?;
    let mut samples = Vec::new();
    for group in payload(file, number).chunks_exact(5) {
        samples.extend(unpack([group[0], group[1], group[2], group[3], group[4]]));
    }
    let filler = samples.split_off(wanted);
    let bytes_zero = block[PAYLOAD_END..CHECKED].iter().all(|&byte| byte == 0);
    if !bytes_zero || filler.iter().any(|&sample| sample != 0) {
        return refused(10, number);
    }
    Ok(samples)
}

/// Reads a file into the samples; those past W·H stay.
pub fn read(file: &[u8], samples: &mut [u16]) -> Result<Description, Refusal> {
    if file.len() < BLOCK || file.len() % BLOCK != 0 {
        return refused(6, 0);
    }
    let description = read_header(&file[..BLOCK])?;
    let blocks = block_count(description.width, description.height);
    if file.len() / BLOCK != blocks {
        return refused(6, 0);
    }
    let count = description.width * description.height;
    if samples.len() < count {
        return refused(4, 0);
    }
    let mut found = Vec::new();
    for number in 1..blocks {
        let wanted = (count - found.len()).min(BLOCK_SAMPLES);
        found.extend(read_samples(file, number, wanted)?);
    }
    samples[..count].copy_from_slice(&found);
    Ok(description)
}

/// Fills the file with the blocks of a frame.
pub fn write(
    width: usize,
    height: usize,
    phase: usize,
    mosaic: &[u16],
    file: &mut [u8],
) -> Result<(), Refusal> {
    test_shape(width, height, phase)?;
    test_length(width, height, mosaic)?;
    if file.len() != block_count(width, height) * BLOCK {
        return refused(4, 0);
    }
    test_samples(mosaic)?;
    let header = compose_header(width, height, phase);
    let later = mosaic.chunks(BLOCK_SAMPLES).map(compose_samples);
    let blocks = std::iter::once(header).chain(later);
    for (number, mut block) in blocks.enumerate() {
        block[0..4].copy_from_slice(&(number as u32).to_le_bytes());
        let sum = check(&block);
        block[CHECKED..].copy_from_slice(&sum.to_le_bytes());
        file[number * BLOCK..(number + 1) * BLOCK].copy_from_slice(&block);
    }
    Ok(())
}

/// Block 0 without its number and check.
fn compose_header(width: usize, height: usize, phase: usize) -> [u8; BLOCK] {
    let mut block = [0u8; BLOCK];
    block[4..8].copy_from_slice(TAG);
    block[8..10].copy_from_slice(&(width as u16).to_le_bytes());
    block[10..12].copy_from_slice(&(height as u16).to_le_bytes());
    block[12] = phase as u8;
    block
}

/// A later block without its number and check.
fn compose_samples(samples: &[u16]) -> [u8; BLOCK] {
    let mut block = [0u8; BLOCK];
    for (group, four) in samples.chunks(4).enumerate() {
        let mut filled = [0u16; 4];
        filled[..four.len()].copy_from_slice(four);
        let start = PAYLOAD + 5 * group;
        block[start..start + 5].copy_from_slice(&pack(filled));
    }
    block
}
