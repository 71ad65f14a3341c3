//! The versions of the method that are timed: each has its buffers for frames of one size before the clock starts.

use crate::optimised::Optimised;
use crate::plain::Plain;

pub trait Version {
    fn new(width: usize, height: usize) -> Self
    where
        Self: Sized;

    /// Fills the planes red, green and blue, less the black level, and the decision map from a mosaic of the size.
    fn develop(
        &mut self,
        phase: usize,
        black: usize,
        mosaic: &[u16],
        planes: [&mut [i32]; 3],
        map: &mut [u8],
    );
}

/// The proved library.
pub struct Proved {
    width: usize,
    height: usize,
    work: Vec<i32>,
}

impl Version for Proved {
    fn new(width: usize, height: usize) -> Self {
        let work = vec![-1; 4 * width * height];
        Proved {
            width,
            height,
            work,
        }
    }

    fn develop(
        &mut self,
        phase: usize,
        black: usize,
        mosaic: &[u16],
        [red, green, blue]: [&mut [i32]; 3],
        map: &mut [u8],
    ) {
        let (width, height, work) = (self.width, self.height, &mut self.work);
        let answer = compare::develop(
            width, height, phase, black, mosaic, red, green, blue, map, work,
        );
        assert_eq!(answer, Ok(()));
    }
}

/// The independent implementation of tests/reference.
pub struct Literal {
    width: usize,
    height: usize,
    work: Vec<i32>,
}

impl Version for Literal {
    fn new(width: usize, height: usize) -> Self {
        let work = vec![-1; 4 * width * height];
        Literal {
            width,
            height,
            work,
        }
    }

    fn develop(
        &mut self,
        phase: usize,
        black: usize,
        mosaic: &[u16],
        [red, green, blue]: [&mut [i32]; 3],
        map: &mut [u8],
    ) {
        let (width, height, work) = (self.width, self.height, &mut self.work);
        let answer = reference::calls::develop(
            width, height, phase, black, mosaic, red, green, blue, map, work,
        );
        assert_eq!(answer, Ok(()));
    }
}

impl Version for Plain {
    fn new(width: usize, height: usize) -> Self {
        Plain::new(width, height)
    }

    fn develop(
        &mut self,
        phase: usize,
        black: usize,
        mosaic: &[u16],
        planes: [&mut [i32]; 3],
        map: &mut [u8],
    ) {
        Plain::develop(self, phase, black as i32, mosaic, planes, map);
    }
}

impl Version for Optimised {
    fn new(width: usize, height: usize) -> Self {
        Optimised::new(width, height)
    }

    fn develop(
        &mut self,
        phase: usize,
        black: usize,
        mosaic: &[u16],
        planes: [&mut [i32]; 3],
        map: &mut [u8],
    ) {
        Optimised::develop(self, phase, black as i32, mosaic, planes, map);
    }
}
