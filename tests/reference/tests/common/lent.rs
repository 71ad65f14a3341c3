//! What develop is lent.

use super::black::{bright_enough, level, TOO_HIGH};
use super::{frame_of_sides, Generator, Kind};
use reference::sites::Frame;

/// The numbers of develop's refusals, in the order in which they are tested.
pub const ORDER: [u32; 7] = [1, 2, 11, 3, 4, 5, 12];

/// Where a call has its fault: a sample that is too high stands behind one that is too dark.
pub fn place_of(number: u32) -> usize {
    usize::from(number == 5)
}

/// All that is lent to one call of develop.
#[derive(Clone, Debug, PartialEq)]
pub struct Lent {
    pub width: usize,
    pub height: usize,
    pub phase: usize,
    pub black: usize,
    pub mosaic: Vec<u16>,
    pub red: Vec<i32>,
    pub green: Vec<i32>,
    pub blue: Vec<i32>,
    pub map: Vec<u8>,
    pub work: Vec<i32>,
}

impl Lent {
    /// A call of a frame at a black level, with numbers of any size in the buffers and `more` entries of work than are needed.
    pub fn new(generator: &mut Generator, frame: &Frame, black: usize, more: usize) -> Self {
        let count = frame.width * frame.height;
        Lent {
            width: frame.width,
            height: frame.height,
            phase: frame.phase,
            black,
            mosaic: frame.samples.clone(),
            red: generator.numbers(count),
            green: generator.numbers(count),
            blue: generator.numbers(count),
            map: generator.bytes(count),
            work: generator.numbers(4 * count + more),
        }
    }

    /// The same for a small random frame and a black level with which it is accepted.
    pub fn small(generator: &mut Generator) -> Self {
        let (width, height) = (generator.size(2, 7), generator.size(2, 7));
        let frame = frame_of_sides(generator, Kind::Random, width, height);
        let (black, more) = (level(generator), generator.size(0, 3));
        Lent::new(generator, &bright_enough(frame, black), black, more)
    }

    /// Puts the fault of one number into the call. Of several faults the one that is tested last comes first.
    pub fn spoil(&mut self, number: u32, generator: &mut Generator) {
        match number {
            1 => self.width = generator.one_of(&[0, 1, 4_097, usize::MAX]),
            2 => self.phase = generator.one_of(&[4, 9, usize::MAX]),
            3 => self.mosaic.push(3),
            4 => match generator.between(0, 5) {
                0 => self.red.push(1),
                1 => self.green.clear(),
                2 => self.blue.truncate(1),
                3 => self.map.push(1),
                4 => self.map.truncate(3),
                _ => self.work.truncate(3),
            },
            5 => self.mosaic[place_of(5)] = generator.one_of(&[1_024, 2_000, u16::MAX]),
            11 => self.black = generator.one_of(&TOO_HIGH),
            _ => {
                let sample = generator.size(0, 190);
                self.mosaic[place_of(12)] = sample as u16;
                self.black = generator.size(sample + 65, 255);
            }
        }
    }
}
