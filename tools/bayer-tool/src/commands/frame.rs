//! frame IMAGE FRAME --phase P: a frame file from a PGM, or from a PPM masked to the mosaic. Values are scaled from 0..greatest to
//! 0..1,023, to the nearest; with --unscaled they are taken as they are.

use crate::arguments::{phase, Arguments};
use crate::frames;
use crate::input::Input;
use crate::netpbm::{self, Image};
use crate::output::Output;
use crate::problem::Problem;
use crate::progress::Progress;
use bayer::SAMPLE_MOST;
use reference::sites::{colour, Colour, Frame};

/// The nearest of 0..1,023 to 1,023/most of the value.
fn scaled(value: u16, most: u16) -> u16 {
    let (value, most) = (u32::from(value), u32::from(most));
    ((2 * value * u32::from(SAMPLE_MOST) + most) / (2 * most)) as u16
}

/// The image's values as samples; of three channels the site's own colour is taken.
pub fn masked(image: &Image, phase: usize, unscaled: bool) -> Frame {
    let sample = |site: usize| {
        let (row, column) = (site / image.width, site % image.width);
        let channel = match colour(phase % 4, row as i64, column as i64) {
            Colour::Red => 0,
            Colour::Green => 1,
            Colour::Blue => 2,
        };
        let value = image.values[site * image.channels + channel % image.channels];
        if unscaled {
            value
        } else {
            scaled(value, image.most)
        }
    };
    Frame {
        width: image.width,
        height: image.height,
        phase,
        samples: (0..image.width * image.height).map(sample).collect(),
    }
}

pub fn run(words: &[String]) -> Result<(), Problem> {
    let arguments = Arguments::parse(words, &["--phase"], &["--unscaled"])?;
    let [from, to] = arguments.exactly(["IMAGE", "FRAME"])?;
    let given = arguments
        .option("--phase")
        .ok_or_else(|| Problem::Usage("--phase is needed".into()))?;
    let phase = phase(given)?;
    let from = Input::of(from);
    let to = Output::of(to, Some(from))?;
    let image = netpbm::load(from)?;
    Progress::of(image.values.len() / image.channels).step("writing the frame file");
    let frame = masked(&image, phase, arguments.flag("--unscaled"));
    frames::save(&frame, from, &to)
}
