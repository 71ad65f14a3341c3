//! What the tests share: numbers drawn from a seed, frames of six kinds, black levels, developed planes and maps.
#![allow(dead_code)] // each test file uses a part

pub mod black;
pub mod demand3;
pub mod fraction;
pub mod lent;

use demand3::Develop;
use reference::calls::{develop, Refusal};
use reference::frame_file::{block_count, check, write, BLOCK};
use reference::sites::{Colour, Frame};

/// Numbers that follow from a seed alone.
pub struct Generator {
    state: u64,
}

impl Generator {
    pub fn new(seed: u64) -> Self {
        Generator { state: seed }
    }

    fn next(&mut self) -> u64 {
        self.state = self.state.wrapping_add(0x9e37_79b9_7f4a_7c15);
        let mut mixed = self.state;
        mixed = (mixed ^ (mixed >> 30)).wrapping_mul(0xbf58_476d_1ce4_e5b9);
        mixed = (mixed ^ (mixed >> 27)).wrapping_mul(0x94d0_49bb_1331_11eb);
        mixed ^ (mixed >> 31)
    }

    /// A number from `least` to `greatest`.
    pub fn between(&mut self, least: i64, greatest: i64) -> i64 {
        least + (self.next() % (greatest - least + 1) as u64) as i64
    }

    /// A size or a position from `least` to `greatest`.
    pub fn size(&mut self, least: usize, greatest: usize) -> usize {
        self.between(least as i64, greatest as i64) as usize
    }

    pub fn sample(&mut self) -> u16 {
        self.between(0, 1023) as u16
    }

    pub fn one_of<T: Copy>(&mut self, choices: &[T]) -> T {
        choices[self.size(0, choices.len() - 1)]
    }

    pub fn numbers(&mut self, count: usize) -> Vec<i32> {
        let number = || self.between(i32::MIN.into(), i32::MAX.into()) as i32;
        std::iter::repeat_with(number).take(count).collect()
    }

    pub fn bytes(&mut self, count: usize) -> Vec<u8> {
        let byte = || self.between(0, 255) as u8;
        std::iter::repeat_with(byte).take(count).collect()
    }
}

#[derive(Clone, Copy, Debug)]
pub enum Kind {
    Random,
    Flat,
    FewValued,
    Striped,
    Smooth,
    Glaze,
}

pub const KINDS: [Kind; 6] = [
    Kind::Random,
    Kind::Flat,
    Kind::FewValued,
    Kind::Striped,
    Kind::Smooth,
    Kind::Glaze,
];

/// A few values, near each other, at the ends of the range or anywhere.
fn few_values(generator: &mut Generator) -> Vec<u16> {
    let count = generator.size(2, 4);
    let base = generator.between(0, 1020);
    match generator.between(0, 2) {
        0 => (0..count as u16).map(|more| base as u16 + more).collect(),
        1 => vec![0, 1023],
        _ => (0..count).map(|_| generator.sample()).collect(),
    }
}

/// A few values by turns, along one of five directions.
fn striped(generator: &mut Generator, width: usize, count: usize) -> Vec<u16> {
    let period = generator.size(2, 5);
    let values: Vec<u16> = (0..period).map(|_| generator.sample()).collect();
    let (down, along) = generator.one_of(&[(0, 1), (1, 0), (1, 1), (1, 4), (2, 1)]);
    let stripe = |site: usize| down * (site / width) + along * (site % width);
    (0..count)
        .map(|site| values[stripe(site) % period])
        .collect()
}

/// A slope with little noise.
fn smooth(generator: &mut Generator, width: usize, count: usize) -> Vec<u16> {
    let (base, noise) = (generator.between(200, 800), generator.between(0, 2));
    let (down, along) = (generator.between(-20, 20), generator.between(-20, 20));
    let slope = |site: usize| (down * (site / width) as i64 + along * (site % width) as i64) / 4;
    (0..count)
        .map(|site| (base + slope(site) + generator.between(0, noise)).clamp(0, 1023) as u16)
        .collect()
}

/// One level with specks a little above or below it.
fn glaze(generator: &mut Generator, count: usize) -> Vec<u16> {
    let (base, rarity) = (generator.between(2, 1021), generator.size(2, 16));
    let mut speck = || match generator.size(1, rarity) {
        1 => base + generator.between(-2, 2),
        _ => base,
    };
    (0..count).map(|_| speck() as u16).collect()
}

/// The samples of a frame of the kind.
fn samples(generator: &mut Generator, kind: Kind, width: usize, height: usize) -> Vec<u16> {
    let count = width * height;
    match kind {
        Kind::Random => (0..count).map(|_| generator.sample()).collect(),
        Kind::Flat => vec![generator.sample(); count],
        Kind::FewValued => {
            let values = few_values(generator);
            (0..count).map(|_| generator.one_of(&values)).collect()
        }
        Kind::Striped => striped(generator, width, count),
        Kind::Smooth => smooth(generator, width, count),
        Kind::Glaze => glaze(generator, count),
    }
}

/// A frame of the kind with sides from 2 to `greatest_side` and any phase.
pub fn frame(generator: &mut Generator, kind: Kind, greatest_side: usize) -> Frame {
    let width = generator.size(2, greatest_side);
    let height = generator.size(2, greatest_side);
    frame_of_sides(generator, kind, width, height)
}

pub fn frame_of_sides(generator: &mut Generator, kind: Kind, width: usize, height: usize) -> Frame {
    Frame {
        width,
        height,
        phase: generator.size(0, 3),
        samples: samples(generator, kind, width, height),
    }
}

/// K10: 8 rows of 0 0 0 0 800 800 800 800
pub fn edge_frame(phase: usize) -> Frame {
    Frame {
        width: 8,
        height: 8,
        phase,
        samples: [0, 0, 0, 0, 800, 800, 800, 800].repeat(8),
    }
}

/// The planes and the decision map that develop fills.
#[derive(Clone, Debug, PartialEq, Eq)]
pub struct Developed {
    pub red: Vec<i32>,
    pub green: Vec<i32>,
    pub blue: Vec<i32>,
    pub map: Vec<u8>,
}

impl Developed {
    /// A number added to all three numbers at every point; the map stays.
    pub fn plus(self, number: i32) -> Self {
        let added = |plane: Vec<i32>| plane.into_iter().map(|entry| entry + number).collect();
        Developed {
            red: added(self.red),
            green: added(self.green),
            blue: added(self.blue),
            map: self.map,
        }
    }
}

/// Whether a site is green.
pub fn is_green(frame: &Frame, site: usize) -> bool {
    let (row, column) = (site / frame.width, site % frame.width);
    frame.colour(row as i64, column as i64) == Colour::Green
}

/// Three planes that are all equal to the mosaic, and a map with one code at every red and blue site.
pub fn grey(frame: &Frame, code: u8) -> Developed {
    let mosaic: Vec<i32> = frame.samples.iter().map(|&z| i32::from(z)).collect();
    let code_of = |site| if is_green(frame, site) { 0 } else { code };
    Developed {
        red: mosaic.clone(),
        green: mosaic.clone(),
        blue: mosaic,
        map: (0..frame.samples.len()).map(code_of).collect(),
    }
}

/// Develops a frame at a black level, into buffers that hold something else.
pub fn try_develop(frame: &Frame, black: usize) -> Result<Developed, Refusal> {
    let count = frame.width * frame.height;
    let mut developed = Developed {
        red: vec![-9_999; count],
        green: vec![-8_888; count],
        blue: vec![-7_777; count],
        map: vec![99; count],
    };
    develop(
        frame.width,
        frame.height,
        frame.phase,
        black,
        &frame.samples,
        &mut developed.red,
        &mut developed.green,
        &mut developed.blue,
        &mut developed.map,
        &mut vec![-6_666; 4 * count],
    )?;
    Ok(developed)
}

/// The same of a frame that must be accepted.
pub fn developed_at(frame: &Frame, black: usize) -> Developed {
    try_develop.accepted(frame, black)
}

/// The same at black level 0.
pub fn developed(frame: &Frame) -> Developed {
    developed_at(frame, 0)
}

/// The file that the writer makes of a frame, in a buffer that holds something else.
pub fn written(frame: &Frame) -> Vec<u8> {
    let mut file = vec![0xa5; block_count(frame.width, frame.height) * BLOCK];
    let answer = write(
        frame.width,
        frame.height,
        frame.phase,
        &frame.samples,
        &mut file,
    );
    assert_eq!(answer, Ok(()), "{frame:?}");
    file
}

/// Sets the check of one block of a file to what its bytes ask for.
pub fn set_check(file: &mut [u8], number: usize) {
    let block = &mut file[number * BLOCK..(number + 1) * BLOCK];
    let sum = check(block);
    block[508..].copy_from_slice(&sum.to_le_bytes());
}

/// All that is lent to one call, and the call.
pub trait Call: Clone + std::fmt::Debug + PartialEq {
    /// The number and place that the call returns.
    fn call(&mut self) -> (u32, usize);
}

/// The call must be refused so, and leave every buffer untouched.
pub fn must_refuse(mut lent: impl Call, number: u32, place: usize) {
    let before = lent.clone();
    assert_eq!(lent.call(), (number, place), "{before:?}");
    assert_eq!(lent, before);
}

/// What is lent to a call, with one thing changed.
pub fn with<C: Clone>(lent: &C, change: impl Fn(&mut C)) -> C {
    let mut changed = lent.clone();
    change(&mut changed);
    changed
}
