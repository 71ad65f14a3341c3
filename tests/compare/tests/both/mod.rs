//! Calls given to both implementations; here those of develop.
#![allow(dead_code)] // each test file uses a part

pub mod plane;
pub mod read;
pub mod write;

use crate::common::lent::{Lent, ORDER};
use crate::common::{Developed, Generator};
use compare::guarded::{Guarded, Touching};
use reference::calls::{self, Refusal};
use reference::sites::Frame;

/// Gives the call to the proved library, with every buffer between inaccessible pages, and takes what it leaves.
pub fn library_develop(lent: &mut Lent, touching: Touching) -> Result<(), Refusal> {
    let mosaic = Guarded::new(&lent.mosaic, touching);
    let mut red = Guarded::new(&lent.red, touching);
    let mut green = Guarded::new(&lent.green, touching);
    let mut blue = Guarded::new(&lent.blue, touching);
    let mut map = Guarded::new(&lent.map, touching);
    let mut work = Guarded::new(&lent.work, touching);
    let answer = compare::develop(
        lent.width,
        lent.height,
        lent.phase,
        lent.black,
        &mosaic,
        &mut red,
        &mut green,
        &mut blue,
        &mut map,
        &mut work,
    );
    assert!(mosaic.canaries_stand(), "beside the mosaic");
    assert!(map.canaries_stand(), "beside the map");
    for buffer in [&red, &green, &blue, &work] {
        assert!(buffer.canaries_stand(), "beside a plane or work");
    }
    lent.mosaic.copy_from_slice(&mosaic);
    lent.red.copy_from_slice(&red);
    lent.green.copy_from_slice(&green);
    lent.blue.copy_from_slice(&blue);
    lent.map.copy_from_slice(&map);
    lent.work.copy_from_slice(&work);
    answer
}

fn reference_develop(lent: &mut Lent) -> Result<(), Refusal> {
    calls::develop(
        lent.width,
        lent.height,
        lent.phase,
        lent.black,
        &lent.mosaic,
        &mut lent.red,
        &mut lent.green,
        &mut lent.blue,
        &mut lent.map,
        &mut lent.work,
    )
}

/// Both must answer alike and leave alike every entry of every buffer, but for work after success. `at` names the call in a failure.
pub fn both_develop(at: &str, lent: &Lent) -> Result<(), Refusal> {
    let mut expected = lent.clone();
    let expected_answer = reference_develop(&mut expected);
    for touching in [Touching::Before, Touching::After] {
        let mut left = lent.clone();
        let answer = library_develop(&mut left, touching);
        let (width, height, phase, black) = (lent.width, lent.height, lent.phase, lent.black);
        let at = format!("{at}: {width} x {height}, phase {phase}, black {black}, {touching:?}");
        assert_eq!(answer, expected_answer, "{at}");
        if answer.is_ok() {
            left.work.clone_from(&expected.work);
        } else {
            assert!(left == *lent, "{at}: a refusal leaves every buffer");
        }
        assert!(left == expected, "{at}: the buffers");
    }
    expected_answer
}

/// Changes at random what may be wrong with a call.
pub fn disturb(generator: &mut Generator, lent: &mut Lent) {
    for number in ORDER.into_iter().rev().filter(|&number| number != 5) {
        if generator.size(0, 9) == 0 {
            lent.spoil(number, generator);
        }
    }
    if generator.size(0, 9) == 0 {
        lent.height = generator.one_of(&[0, 1, 4_097, 1 << 32, usize::MAX]);
    }
    for _ in 0..generator.size(0, 2) {
        let place = generator.size(0, lent.mosaic.len() - 1);
        let darkest = lent.black.saturating_sub(64).min(1_023) as u16;
        let dark = generator.one_of(&[darkest, darkest.saturating_sub(1), 0]);
        let high = generator.one_of(&[1_023, 1_024, 1_025, 4_096, u16::MAX]);
        lent.mosaic[place] = generator.one_of(&[dark, high]);
    }
}

/// Develops an accepted frame by both at a black level, into buffers that hold anything.
pub fn both_accept(at: &str, generator: &mut Generator, frame: &Frame, black: usize) {
    let more = generator.one_of(&[0, 0, 1, 77]);
    let lent = Lent::new(generator, frame, black, more);
    assert_eq!(both_develop(at, &lent), Ok(()), "{at}");
}

/// The planes and the map that the library fills at a black level, from buffers that hold something else.
pub fn library_try_develop(frame: &Frame, black: usize) -> Result<Developed, Refusal> {
    let mut lent = Lent::new(&mut Generator::new(90), frame, black, 0);
    library_develop(&mut lent, Touching::After)?;
    Ok(Developed {
        red: lent.red,
        green: lent.green,
        blue: lent.blue,
        map: lent.map,
    })
}
