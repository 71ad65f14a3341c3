//! What show draws: clamped planes, and the same through the tone curve.

#[path = "../../../tests/reference/tests/common/mod.rs"]
mod common;

use bayer_tool::commands::show::{byte, clamped, curved};
use common::{developed, frame, Generator, KINDS};
use reference::calls;

#[test]
fn the_planes_are_those_of_the_independent_implementation() {
    let mut generator = Generator::new(230);
    for _ in 0..50 {
        for kind in KINDS {
            let frame = frame(&mut generator, kind, 20);
            let planes = developed(&frame);
            let (held, through) = (clamped(&frame).unwrap(), curved(&frame).unwrap());
            let lent = [planes.red, planes.green, planes.blue];
            for (plane, (held, through)) in lent.iter().zip(held.iter().zip(&through)) {
                let mut expected = vec![-1; plane.len()];
                assert_eq!(calls::clamp(plane, &mut expected), Ok(()));
                assert_eq!(*held, expected, "{frame:?}");
                assert_eq!(calls::curve(held, &mut expected), Ok(()));
                assert_eq!(*through, expected, "{frame:?}");
            }
        }
    }
}

#[test]
fn a_number_becomes_the_nearest_byte() {
    let ends = [
        (0, 0),
        (2, 0),
        (3, 1),
        (511, 127),
        (512, 128),
        (1_020, 254),
        (1_023, 255),
    ];
    for (number, expected) in ends {
        assert_eq!(byte(number), expected, "{number}");
    }
}
