//! One call of write given to both implementations, and faults of frames.

use crate::common::Generator;
use compare::guarded::{Guarded, Touching};
use reference::calls::Refusal;
use reference::frame_file::{self, block_count, BLOCK};
use reference::sites::Frame;

/// Writes into equal buffers; all answers and all buffers must be equal.
pub fn both_write(frame: &Frame, file_length: usize) -> Result<(), Refusal> {
    let before: Vec<u8> = (0..file_length).map(|k| (k * 7 + 3) as u8).collect();
    let mut expected_file = before.clone();
    let (width, height, phase) = (frame.width, frame.height, frame.phase);
    let expected = frame_file::write(width, height, phase, &frame.samples, &mut expected_file);
    let at = ("bytes", file_length, frame);
    for touching in [Touching::Before, Touching::After] {
        let mosaic = Guarded::new(&frame.samples, touching);
        let mut file = Guarded::new(&before, touching);
        let answer = compare::write(width, height, phase, &mosaic, &mut file);
        assert_eq!(answer, expected, "{at:?}");
        assert!(file[..] == expected_file[..], "{at:?}");
        assert!(mosaic[..] == frame.samples[..], "{at:?}");
        assert!(file.canaries_stand() && mosaic.canaries_stand(), "{at:?}");
    }
    if expected.is_err() {
        assert!(expected_file == before, "a refusal leaves the file: {at:?}");
    }
    expected
}

pub fn file_length(frame: &Frame) -> usize {
    block_count(frame.width, frame.height) * BLOCK
}

/// Changes at random what may be wrong with a frame, and gives a length for its file.
pub fn disturb_frame(generator: &mut Generator, frame: &mut Frame) -> usize {
    let faulty_sides = [0, 1, 4097, usize::MAX];
    let mut length = file_length(frame);
    if generator.size(0, 3) == 0 {
        frame.width = generator.one_of(&faulty_sides);
    }
    if generator.size(0, 3) == 0 {
        frame.height = generator.one_of(&faulty_sides);
    }
    if generator.size(0, 2) == 0 {
        frame.phase = generator.one_of(&[4, 5, usize::MAX]);
    }
    match generator.size(0, 5) {
        0 => frame.samples.push(0),
        1 => drop(frame.samples.pop()),
        _ => {}
    }
    match generator.size(0, 7) {
        0 => length += 1,
        1 => length -= 1,
        2 => length += BLOCK,
        3 => length = 0,
        _ => {}
    }
    for _ in 0..generator.size(0, 2) {
        let place = generator.size(0, frame.samples.len() - 1);
        frame.samples[place] = generator.one_of(&[1024, 1025, 4096, u16::MAX]);
    }
    length
}
