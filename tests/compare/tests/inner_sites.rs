//! Document 02, A3: sites 20 or more rows and columns from every edge, through the proved library. What is read for a site stands at most 14
//! rows and columns off.

mod both;
#[path = "../../reference/tests/common/mod.rs"]
mod common;

use both::library_try_develop;
use common::black::frame_and_level;
use common::{frame_of_sides, Developed, Generator, KINDS};
use reference::sites::Frame;

const MARGIN: usize = 20;
const READING_DISTANCE: usize = 14;

/// The three numbers and the entry of the map at a site.
fn at(developed: &Developed, site: usize) -> (i32, i32, i32, u8) {
    let Developed {
        red,
        green,
        blue,
        map,
    } = developed;
    (red[site], green[site], blue[site], map[site])
}

/// The part of a frame that starts at a row and a column; the phase follows the colours.
fn cut_out(frame: &Frame, top: usize, left: usize, width: usize, height: usize) -> Frame {
    let rows = frame.samples.chunks(frame.width).skip(top).take(height);
    Frame {
        width,
        height,
        phase: (frame.phase / 2 + top) % 2 * 2 + (frame.phase + left) % 2,
        samples: rows
            .flat_map(|row| &row[left..left + width])
            .copied()
            .collect(),
    }
}

#[test]
fn a_part_has_the_numbers_of_the_whole_20_off_its_own_edges() {
    let mut generator = Generator::new(102);
    let mut compared = 0;
    for _ in 0..100 {
        for kind in KINDS {
            let (whole, black) = frame_and_level(&mut generator, kind, 90);
            let (width, height) = (whole.width / 2 + 22, whole.height / 2 + 22);
            if width > whole.width || height > whole.height {
                continue;
            }
            let top = generator.size(0, whole.height - height);
            let left = generator.size(0, whole.width - width);
            let part = cut_out(&whole, top, left, width, height);
            let of_whole = library_try_develop(&whole, black).unwrap();
            let of_part = library_try_develop(&part, black).unwrap();
            for row in MARGIN..height.saturating_sub(MARGIN) {
                for column in MARGIN..width.saturating_sub(MARGIN) {
                    let there = (top + row) * whole.width + left + column;
                    let found = at(&of_part, row * width + column);
                    assert_eq!(found, at(&of_whole, there), "{kind:?}: {part:?}");
                    compared += 1;
                }
            }
        }
    }
    assert!(compared > 10_000, "{compared}");
}

/// How far off the farthest site stands that is developed differently where one sample is another.
fn farthest_changed(frame: &Frame, row: usize, column: usize, sample: u16) -> usize {
    let mut other = frame.clone();
    other.samples[row * frame.width + column] = sample;
    let first = library_try_develop(frame, 0).unwrap();
    let last = library_try_develop(&other, 0).unwrap();
    let off = |site: usize| {
        let (i, j) = (site / frame.width, site % frame.width);
        i.abs_diff(row).max(j.abs_diff(column))
    };
    (0..frame.samples.len())
        .filter(|&site| at(&first, site) != at(&last, site))
        .map(off)
        .max()
        .unwrap_or(0)
}

/// No sample counts farther off, and some do count so far.
#[test]
fn the_farthest_sample_that_counts_stands_14_off() {
    let mut generator = Generator::new(103);
    let mut farthest = 0;
    for _ in 0..500 {
        for kind in KINDS {
            let frame = frame_of_sides(&mut generator, kind, 60, 60);
            let (row, column) = (generator.size(0, 59), generator.size(0, 59));
            let sample = generator.sample();
            farthest = farthest.max(farthest_changed(&frame, row, column, sample));
        }
    }
    assert_eq!(farthest, READING_DISTANCE);
}
