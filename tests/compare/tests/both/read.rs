//! One call of read given to both implementations, and damage to files.

use crate::common::{set_check, Generator};
use compare::guarded::{Guarded, Touching};
use reference::calls::Refusal;
use reference::frame_file::{self, Description, BLOCK};

/// Reads into equal buffers; all answers and all buffers must be equal.
pub fn both_read(file: &[u8], room: usize) -> Result<Description, Refusal> {
    let before: Vec<u16> = (0..room).map(|k| (k * 31 + 5) as u16).collect();
    let mut expected_samples = before.clone();
    let expected = frame_file::read(file, &mut expected_samples);
    let at = ("room", room, "file", file);
    for touching in [Touching::Before, Touching::After] {
        let lent = Guarded::new(file, touching);
        let mut samples = Guarded::new(&before, touching);
        let answer = compare::read(&lent, &mut samples);
        assert_eq!(answer, expected, "{at:?}");
        assert!(samples[..] == expected_samples[..], "{at:?}");
        assert!(lent[..] == *file, "{at:?}");
        assert!(lent.canaries_stand() && samples.canaries_stand(), "{at:?}");
    }
    if expected.is_err() {
        assert!(
            expected_samples == before,
            "a refusal leaves the samples: {at:?}"
        );
    }
    expected
}

/// One fault, with or without the check set anew.
pub fn damage(generator: &mut Generator, file: &mut Vec<u8>) {
    let blocks = (file.len() / BLOCK).max(1);
    let number = generator.size(0, blocks - 1);
    let within = match generator.size(0, 5) {
        0 => generator.size(0, 3),
        1 => generator.size(4, 12),
        2 => generator.size(13, 507),
        3 => generator.size(500, 507),
        4 => generator.size(508, 511),
        _ => generator.size(0, 511),
    };
    let place = number * BLOCK + within;
    if place < file.len() {
        file[place] = generator.one_of(&[0, 1, 2, 16, 255, 64]);
    }
    match generator.size(0, 11) {
        0 => file.truncate(file.len() - BLOCK.min(file.len())),
        1 => file.extend(std::iter::repeat(0).take(BLOCK)),
        2 => drop(file.pop()),
        _ => {}
    }
    if generator.size(0, 4) > 0 {
        for block in 0..file.len() / BLOCK {
            set_check(file, block);
        }
    }
}
