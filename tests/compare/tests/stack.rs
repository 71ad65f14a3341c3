//! The stack that each call takes is within what include/bayer.h says. `cargo test .. --test stack -- --nocapture` prints it.

#[path = "../../reference/tests/common/mod.rs"]
mod common;

use common::{frame_of_sides, written, Generator, Kind};
use compare::stack::depth;

/// BAYER_STACK_BYTES of the header.
fn promised() -> usize {
    let header = include_str!("../../../include/bayer.h");
    let (_, after) = header
        .split_once("#define BAYER_STACK_BYTES ")
        .expect("the header tells the stack that a call takes");
    after.lines().next().unwrap().parse().unwrap()
}

#[test]
fn calls_take_no_more_stack_than_the_header_says() {
    let mut generator = Generator::new(96);
    let mut deepest = 0;
    for (width, height) in [(2, 2), (4_096, 3), (3, 4_096), (61, 47)] {
        let frame = frame_of_sides(&mut generator, Kind::FewValued, width, height);
        let (count, phase) = (width * height, frame.phase);
        let (mosaic, mut file, black) = (&frame.samples, written(&frame), 64);
        let (mut red, mut green, mut blue) = (vec![0; count], vec![0; count], vec![0; count]);
        let (mut map, mut work) = (vec![0; count], vec![0; 4 * count]);
        let mut samples = vec![0; count];
        let develop = depth(&mut || {
            let answer = compare::develop(
                width, height, phase, black, mosaic, &mut red, &mut green, &mut blue, &mut map,
                &mut work,
            );
            assert_eq!(answer, Ok(()));
        });
        let clamp = depth(&mut || assert_eq!(compare::clamp(&red, &mut green), Ok(())));
        let curve = depth(&mut || assert_eq!(compare::curve(&green, &mut blue), Ok(())));
        let read = depth(&mut || assert!(compare::read(&file, &mut samples).is_ok()));
        let write = depth(&mut || {
            assert_eq!(
                compare::write(width, height, phase, mosaic, &mut file),
                Ok(())
            );
        });
        println!(
            "{width} x {height}: develop {develop}, clamp {clamp}, curve {curve}, read {read}, write {write}"
        );
        for bytes in [develop, clamp, curve, read, write] {
            deepest = deepest.max(bytes);
        }
    }
    let promised = promised();
    assert!(deepest <= promised, "{deepest} of {promised} bytes");
    // the figure is near what is taken
    assert!(promised < 2 * deepest, "{deepest} of {promised} bytes");
}
